//! Times the library beside ordinary Rust with growable lists, in one run:
//! packing and checking over eight shapes and five sizes, checking over nine
//! numbers of nodes with as many edges as there may be, then batches of
//! questions of each kind.

mod asking;
mod packing;
mod times;

fn main() {
    println!(
        "Medians and leasts of {} rounds, the functions of a line in turns.",
        times::ROUNDS
    );
    println!("Ratios are of medians and of leasts; below 1 the first is faster. Our buffers");
    println!("were allocated once for each line. On a busy machine go by the leasts.");
    packing::run();
    packing::sweep();
    asking::run();
}
