# `make` runs the main job: it builds the library and the program `list`, packs the drawn graph of the paper and lists it. `make test` is the gate.
.PHONY: all library command list figures test

# The prover writes much: it goes to a log, of which the end is shown where it fails.
PROVE = @mkdir -p target; echo "$(1): proving, minutes the first time; its log is target/make.log"; ($(1)) > target/make.log 2>&1 || { tail -n 30 target/make.log; exit 1; }
CARGO = --offline --quiet --release --manifest-path rust/Cargo.toml --features pack,check,unpack,ask

all: library list
	cargo run $(CARGO) --bin drawn
	crates/list/out/list < crates/list/stdin

library:
	$(call PROVE,cd crates/glouds && rt lib)

list:
	$(call PROVE,cd crates/list && rt run < stdin)

command: library
	cargo build $(CARGO) --bin glouds

figures: library
	cargo run $(CARGO) --bin bench
	cargo run $(CARGO) --bin memory

test:
	.ci/run
