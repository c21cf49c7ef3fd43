//! Tables and images that are refused: the number and its words, and no file
//! changed.

use crate::folder::Folder;
use crate::{image, REFUSED};
use glouds::make::{self, bytes, DRAWN};
use glouds::plain;
use std::fs;

/// The drawn graph's image damaged, with the refusal that each gets.
fn damaged() -> Vec<(Vec<u8>, u32)> {
    let drawn = image(&DRAWN);
    let with = |at: usize, byte: u8| make::with(&drawn, at, 1, u64::from(byte));
    let list = vec![
        (Vec::new(), 21),
        (drawn[..104].to_vec(), 21),
        (with(2, 2), 22),
        (with(4, 243), 23),
        (with(9, 5), 24),
        (with(21, 9), 25),
        ([&drawn[..], &[0]].concat(), 26),
        ([&drawn[..], &vec![0; 2_000_000]].concat(), 26),
    ];
    for (bytes, refusal) in &list {
        assert_eq!(plain::check(bytes), *refusal);
    }
    list
}

#[test]
fn refused_tables() {
    let folder = Folder::new("tables")
        .with("image", b"old image")
        .with("order", b"old order");
    for (table, number) in REFUSED {
        assert_eq!(plain::pack(table).err(), Some(number));
        fs::write(folder.0.join("table"), bytes(table)).unwrap();
        let ran = folder.run(&["pack", "table", "image", "order"]);
        ran.refused("table", number);
        assert!(ran.output.is_empty());
        let ran = folder.run(&["pack", "table", "-"]);
        ran.refused("table", number);
        assert!(ran.output.is_empty());
    }
    assert_eq!(folder.read("image"), b"old image");
    assert_eq!(folder.read("order"), b"old order");
    assert_eq!(folder.names(), ["image", "order", "table"]);
}

/// Longer than any table: the number is that of the whole file.
#[test]
fn long_tables() {
    let folder = Folder::new("long");
    let full = make::used_by_all(30_000, 65_535).table();
    let mut seven = full.clone(); // one root too many
    seven[95_536] += 1;
    seven.push(1);
    let mut out_of_range = full.clone();
    out_of_range[95_536] = 65_535;
    out_of_range.extend(vec![30_001; 40_000]);
    for (table, number) in [
        ([&full[..], &[0]].concat(), 6),
        ([&full[..], &vec![9; 300_000]].concat(), 6),
        (vec![0; 400_000], 6),
        (vec![1; 400_000], 6),
        (vec![65_535; 400_000], 2),
        (seven, 5),
        (out_of_range, 4),
    ] {
        assert_eq!(plain::pack(&table).err(), Some(number));
        let mut input = bytes(&table);
        for arguments in [&["pack", "-", "image"], &["list", "--long", "-"]] {
            folder.run_with(arguments, &input).refused("-", number);
        }
        input.push(0);
        folder
            .run_with(&["pack", "-", "image"], &input)
            .trouble("even number of bytes");
        folder
            .run_with(&["list", "--long", "-"], &input)
            .refused("-", 61);
    }
    assert!(folder.names().is_empty());
}

#[test]
fn odd_tables() {
    let folder = Folder::new("odd")
        .with("table", &[0, 0, 0])
        .with("image", b"old");
    folder
        .run(&["pack", "table", "image"])
        .trouble("table: a table has an even number");
    assert_eq!(folder.read("image"), b"old");
}

#[test]
fn refused_images() {
    let mut folder = Folder::new("images")
        .with("table", b"old table")
        .with("answers", b"old answers")
        .with("good", &image(&DRAWN));
    for (bytes, number) in damaged() {
        folder = folder.with("bad", &bytes);
        folder.run(&["check", "bad"]).refused("bad", number);
        folder
            .run_with(&["check", "-"], &bytes)
            .refused("-", number);
        folder
            .run(&["unpack", "bad", "table"])
            .refused("bad", number);
        folder.run(&["unpack", "bad", "-"]).refused("bad", number);
        let ran = folder.run_with(&["ask", "bad", "-", "answers"], b"3 1 0\n");
        ran.refused("bad", number);
        folder.run_with(&["ask", "bad"], b"").refused("bad", number);
        folder.run(&["same", "bad", "good"]).refused("bad", number);
        folder.run(&["same", "good", "bad"]).refused("bad", number);
        folder.run(&["same", "bad", "bad"]).refused("bad", number);
    }
    assert_eq!(folder.read("table"), b"old table");
    assert_eq!(folder.read("answers"), b"old answers");
    assert_eq!(folder.names(), ["answers", "bad", "good", "table"]);
}
