//! include/glouds.h: a C program over it, and its numbers and words.

use glouds::{owned, plain, refusals};
use std::path::{Path, PathBuf};
use std::process::Command;

/// What tests/c/example.c prints.
const EXAMPLE: &str = "\
order 1 2 3 4 5 6 7 8
image of 105 bytes
check 0, cut by a byte 21
1: 2 3 |
2: 4 | 1
3: 4* 5 | 1
4: 6 7 | 2 3*
5: 7* 8 | 3
6: 8* | 4
7: | 4 5* 8*
8: 7* | 5 6*
done 2
done 6
done 9
done 0
done 7, shadow
done 3
done 4, real
unknown kind 0
first outside 0
second outside 0
refusals as named
asked 48 answered 45 refused 3
table 8 2 2 3 1 4 2 4 5 2 6 7 2 7 8 1 8 0 1 7 1 1
";

fn package() -> &'static Path {
    Path::new(env!("CARGO_MANIFEST_DIR"))
}

/// Compiles a C file of tests/c with every warning an error, and runs it.
fn run_c(name: &str) -> String {
    let compiler = std::env::var_os("CC").unwrap_or_else(|| "cc".into());
    let program = PathBuf::from(env!("CARGO_TARGET_TMPDIR")).join(name);
    let mut command = Command::new(&compiler);
    command.args("-std=c11 -Wall -Wextra -Wpedantic -Werror -O1 -o".split(' '));
    command
        .arg(&program)
        .arg("-I")
        .arg(package().join("../include"));
    command.arg(package().join("tests/c").join(name).with_extension("c"));
    command.arg(env!("GLOUDS_LIB"));
    match command.output() {
        Ok(made) if made.status.success() => {}
        Ok(made) => panic!("{}", String::from_utf8_lossy(&made.stderr)),
        Err(cause) => panic!("no C compiler: {}: {cause}", compiler.display()),
    }
    let ran = Command::new(&program).output().expect("a program");
    assert!(ran.status.success(), "{ran:?}");
    String::from_utf8(ran.stdout).expect("text")
}

#[test]
fn example() {
    assert_eq!(run_c("example"), EXAMPLE);
}

/// The room that an image takes, beside images of the plain packer: all nodes are
/// roots, and the first uses them in turn.
#[test]
fn room() {
    let text = run_c("room");
    let mut lines = 0;
    for line in text.lines() {
        let numbers: Vec<usize> = line.split(' ').map(|word| word.parse().unwrap()).collect();
        let [n, m, length, room] = numbers[..] else {
            panic!("{line}");
        };
        let mut graph = glouds::make::all_roots(n);
        graph.operands[0] = (0..m).map(|edge| 1 + edge % n).collect();
        let packed = plain::pack(&graph.table()).unwrap();
        assert_eq!(packed.image.len(), length, "{line}");
        assert!(length <= room, "{line}");
        lines += 1;
    }
    assert!(lines > 40);
}

/// The numbers of the header are those of the Rust side, with the same words.
#[test]
fn refusal_numbers() {
    let header = std::fs::read_to_string(package().join("../include/glouds.h")).unwrap();
    let body = header.split("enum glouds_refusal {").nth(1).unwrap();
    let mut shown = Vec::new();
    for line in body
        .split("};")
        .next()
        .unwrap()
        .lines()
        .filter(|line| !line.trim().is_empty())
    {
        let (left, words) = line.split_once("/*").unwrap();
        let number = left.split('=').nth(1).unwrap().trim().trim_end_matches(',');
        shown.push((number.parse().unwrap(), words.trim_end_matches("*/").trim()));
    }
    let due: Vec<_> = (0..=99)
        .filter_map(|number| Some((number, refusals::words(number)?)))
        .collect();
    assert_eq!(shown, due);
}

#[test]
fn limits() {
    let header = std::fs::read_to_string(package().join("../include/glouds.h")).unwrap();
    for (name, number) in [
        ("NODES", plain::MOST_NODES),
        ("EDGES", plain::MOST_EDGES),
        ("TRITS", plain::MOST_TRITS),
        ("TABLE_WORDS", owned::MOST_TABLE_WORDS),
        ("IMAGE_BYTES", owned::MOST_IMAGE_BYTES),
    ] {
        assert!(header.contains(&format!("\n#define GLOUDS_MOST_{name} {number}\n")));
    }
}
