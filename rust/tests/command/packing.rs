//! Tables packed, unpacked and compared: the drawn graph, the largest ones, and
//! the room of an image.

use crate::folder::Folder;
use crate::image;
use glouds::make::{self, bytes, Xorshift, DRAWN};
use glouds::plain;
use std::fs;

#[test]
fn packs_and_unpacks() {
    let folder = Folder::new("packs").with("drawn", &bytes(&DRAWN));
    folder.run(&["pack", "drawn", "image", "order"]).done(b"");
    assert_eq!(folder.read("image"), image(&DRAWN));
    assert_eq!(folder.read("order"), bytes(&[1, 2, 3, 4, 5, 6, 7, 8]));
    folder.run(&["check", "image"]).done(b"");
    folder.run(&["unpack", "image", "table"]).done(b"");
    assert_eq!(folder.read("table"), bytes(&DRAWN));
    folder.run(&["pack", "drawn", "again"]).done(b"");
    folder.run(&["same", "image", "again"]).done(b"");
    assert_eq!(
        folder.names(),
        ["again", "drawn", "image", "order", "table"]
    );
}

#[test]
fn largest_graphs() {
    let rng = &mut Xorshift::new(211);
    let mut graphs = make::largest(rng);
    graphs.push(plain::Graph::default());
    let folder = Folder::new("largest");
    for graph in graphs {
        let table = graph.table();
        let packed = plain::pack(&table).unwrap();
        let ran = folder.run_with(&["pack", "-", "image", "order"], &bytes(&table));
        ran.done(b"");
        assert!(folder.read("image") == packed.image);
        assert!(folder.read("order") == bytes(&packed.order));
        let table = plain::unpack(&packed.image, usize::MAX).unwrap();
        folder.run(&["unpack", "image", "-"]).done(&bytes(&table));
        let listing = plain::listed(&table).unwrap();
        let ran = folder.run_with(&["list", "--long", "-"], &bytes(&table));
        ran.done(listing.as_bytes());
    }
}

/// The largest image, and the same with a byte after it.
#[test]
fn largest_image() {
    // Each of 30,000 roots uses itself twice, and some once more.
    let mut graph = make::all_roots(30_000);
    for (index, list) in graph.operands.iter_mut().enumerate() {
        *list = vec![index + 1; if index < 5_535 { 3 } else { 2 }];
    }
    let table = graph.table();
    assert_eq!(table.len(), glouds::owned::MOST_TABLE_WORDS);
    let mut image = image(&table);
    assert_eq!(image.len(), glouds::owned::MOST_IMAGE_BYTES);
    let folder = Folder::new("largest-image");
    let ran = folder.run_with(&["pack", "-", "-"], &bytes(&table));
    ran.done(&image);
    let ran = folder.run_with(&["unpack", "-", "-"], &image);
    ran.done(&bytes(&table));
    image.push(0);
    folder.run_with(&["check", "-"], &image).refused("-", 26);
    folder
        .run_with(&["unpack", "-", "-"], &image)
        .refused("-", 26);
}

/// Two hosts that number one derivation in two ways.
#[test]
fn one_image_for_two_numberings() {
    let rng = &mut Xorshift::new(223);
    let graph = make::random(500, 900, 3, rng);
    let other = make::renumber(&graph, &rng.renumbering(500));
    let folder = Folder::new("hosts")
        .with("a", &bytes(&graph.table()))
        .with("b", &bytes(&other.table()));
    folder.run(&["pack", "a", "a.image"]).done(b"");
    folder.run(&["pack", "b", "b.image"]).done(b"");
    assert_ne!(folder.read("a"), folder.read("b"));
    folder.run(&["same", "a.image", "b.image"]).done(b"");
}

#[test]
fn different_images() {
    let folder = Folder::new("same")
        .with("a", &image(&[3, 2, 2, 3, 1, 3, 0, 1, 1]))
        .with("b", &image(&[3, 2, 3, 2, 1, 3, 0, 1, 1]))
        .with("c", &image(&[3, 2, 3, 2, 0, 1, 2, 1, 1]))
        .with("d", &image(&DRAWN));
    folder.run(&["same", "a", "c"]).done(b"");
    for (one, other, place) in [("a", "b", 5), ("b", "c", 5), ("a", "d", 0), ("d", "c", 0)] {
        let ran = folder.run(&["same", one, other]);
        let due = format!("glouds: {one} and {other} differ at byte {place}\n");
        assert_eq!((ran.status, ran.errors), (1, due));
        assert!(ran.output.is_empty());
    }
    folder
        .run_with(&["same", "-", "a"], &folder.read("c"))
        .done(b"");
    folder
        .run_with(&["same", "a", "-"], &folder.read("c"))
        .done(b"");
    folder.run(&["same", "-", "-"]).trouble("wrong use");
}

/// Room for an image by the words of its table.
#[test]
fn rooms() {
    let rng = &mut Xorshift::new(233);
    let mut graphs = make::largest(rng);
    graphs.extend((0..300).map(|round| {
        let n = 1 + rng.below(1 + round);
        let c = 1 + rng.below(n);
        make::random(n, n - c + rng.below(200), c, rng)
    }));
    graphs.extend((0..400).map(make::loops));
    graphs.extend((1..200).map(make::all_roots));
    for graph in &graphs {
        let table = graph.table();
        let length = image(&table).len();
        assert!(length <= glouds::owned::image_room(table.len()));
        assert!(length <= glouds::owned::MOST_IMAGE_BYTES);
    }
}

/// The drawn graph's image in docs/FORMAT.md, byte by byte, is the library's.
#[test]
fn format_paper() {
    let path = concat!(env!("CARGO_MANIFEST_DIR"), "/../docs/FORMAT.md");
    let paper = fs::read_to_string(path).unwrap();
    let block = paper.split("```image\n").nth(1).unwrap();
    let mut written = Vec::new();
    for line in block.split("```").next().unwrap().lines() {
        let [place, numbers, _] = line.split('|').collect::<Vec<_>>()[..] else {
            panic!("{line}");
        };
        assert_eq!(place.trim().parse(), Ok(written.len()), "{line}");
        let numbers = numbers.split_whitespace();
        written.extend(numbers.map(|number| u8::from_str_radix(number, 16).unwrap()));
    }
    let folder = Folder::new("paper");
    folder
        .run_with(&["pack", "-", "-"], &bytes(&DRAWN))
        .done(&written);
}
