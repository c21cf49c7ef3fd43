//! The proved program `list` beside the independent side: the same text, byte
//! for byte, for sound tables, damaged ones, and inputs that are no table.

use glouds::make::{self, bytes, Xorshift};
use glouds::plain;
use std::collections::BTreeMap;
use std::io::Write;
use std::path::PathBuf;
use std::process::{Command, Stdio};

/// Where `rt run` puts the program; GLOUDS_LIST names another.
fn program() -> PathBuf {
    match std::env::var_os("GLOUDS_LIST") {
        Some(path) => path.into(),
        None => PathBuf::from(env!("CARGO_MANIFEST_DIR")).join("../crates/list/out/list"),
    }
}

/// What the program writes. Input in small pieces makes its reads short.
fn list(input: &[u8], piece: usize) -> Vec<u8> {
    let path = program();
    let mut child = Command::new(&path)
        .stdin(Stdio::piped())
        .stdout(Stdio::piped())
        .stderr(Stdio::piped())
        .spawn()
        .unwrap_or_else(|error| panic!("{}: {error}; `rt run` in crates/list makes it", path.display()));
    let mut stdin = child.stdin.take().unwrap();
    for bytes in input.chunks(piece) {
        // It stops reading at its limit, and a pipe to nobody is an error.
        if stdin.write_all(bytes).is_err() {
            break;
        }
    }
    drop(stdin);
    let output = child.wait_with_output().unwrap();
    assert!(output.status.success());
    assert!(output.stderr.is_empty());
    output.stdout
}

/// One input on both sides; gives the text's first word or its refusal.
fn compare(input: &[u8], piece: usize) -> String {
    let text = list(input, piece);
    assert!(text == plain::listing(input), "input {input:?}");
    let line = String::from_utf8(text).unwrap();
    let mut words = line.split_whitespace();
    match words.next() {
        Some("refused") => words.next().unwrap().into(),
        _ => "listed".into(),
    }
}

/// Sound tables of many shapes, at most 4,000 words.
fn tables(rng: &mut Xorshift) -> Vec<Vec<u16>> {
    let mut tables = vec![vec![0, 0]];
    for round in 0..120 {
        let n = 1 + rng.below(if round < 100 { 40 } else { 790 });
        let m = n + rng.below(2 * n);
        let c = 1 + rng.below(n);
        tables.push(make::random(n, m, c, rng).table());
    }
    // one node with all the edges that fit, and as many roots as fit
    let loops = 4000 - 2 - 2;
    let mut one = vec![1, loops];
    one.resize(2 + usize::from(loops), 1);
    one.extend([1, 1]);
    tables.push(one);
    let roots = 1999;
    let mut all = vec![0; 1 + usize::from(roots)];
    all[0] = roots;
    all.push(roots);
    all.extend(1..=roots);
    tables.push(all);
    tables
}

#[test]
fn beside_the_plain_listing() {
    let mut rng = Xorshift::new(61);
    let mut counts: BTreeMap<String, u32> = BTreeMap::new();
    let mut add = |what: String| *counts.entry(what).or_default() += 1;
    for table in tables(&mut rng) {
        assert!(table.len() <= 4000);
        let sound = bytes(&table);
        add(compare(&sound, 8001));
        for _ in 0..3 {
            let mut damaged = table.clone();
            match rng.below(4) {
                0 => drop(damaged.pop()),
                1 => damaged.push(7),
                _ => {
                    let at = rng.below(damaged.len());
                    damaged[at] = rng.below(table.len() + 2) as u16;
                }
            }
            add(compare(&bytes(&damaged), 1 + rng.below(500)));
        }
    }
    for length in [1, 3, 7999, 8000, 8001, 8002, 8003, 9000, 70_000] {
        for value in [0, 1, 255] {
            add(compare(&vec![value; length], 4096));
        }
    }
    add(compare(&[], 1));
    println!("list: {counts:?}");
    for what in ["listed", "1", "2", "3", "4", "5", "6", "8", "61"] {
        assert!(counts.contains_key(what), "no input is {what}");
    }
}
