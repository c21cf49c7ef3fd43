//! The cases of document 01: both sides of each line, the drawn graph, and the
//! errors seen in packers.

use crate::{asked, listed, packed};
use glouds::make::{self, DRAWN, LISTING};
use glouds::plain;

/// Asserts the trits, written as digits, and H.
fn gives(table: &[u16], trits: &str, shadows: &[usize]) {
    let packed = packed(table);
    let digits: String = packed.trits.iter().map(u8::to_string).collect();
    assert_eq!(digits, trits, "{table:?}");
    assert_eq!(packed.shadows, shadows, "{table:?}");
    assert_eq!(plain::check(&packed.image), 0, "{table:?}");
}

#[test]
fn both_sides_of_each_line() {
    gives(&[0, 0], "0", &[]);
    assert_eq!(packed(&[0, 0]).image.len(), 55);
    gives(&[1, 0, 1, 1], "100", &[]);
    gives(&[1, 1, 1, 1, 1], "1020", &[1]);
    assert_eq!(plain::sections(&[1, 0, 2, 0], &[1])[2].contents[0], 1);
    assert_eq!(asked(&[1, 1, 1, 1, 1], 5, 1, 0), [0, 1, 0]);
    assert_eq!(asked(&[1, 1, 1, 1, 1], 6, 1, 1), [0, 1, 2]);
    let square = [2, 2, 2, 2, 0, 1, 1];
    gives(&square, "101200", &[2]);
    assert_eq!(asked(&square, 5, 2, 0), [0, 2, 0]);
    assert_eq!(asked(&square, 6, 2, 1), [0, 1, 1]);
    assert_eq!(asked(&square, 6, 2, 2), [0, 1, 2]);
    gives(&[2, 1, 2, 0, 2, 1, 2], "110200", &[2]);
    gives(&[2, 1, 2, 0, 2, 2, 1], "110020", &[1]);
    assert_eq!(packed(&[2, 1, 2, 0, 2, 2, 1]).order, [2, 1]);
    let first = [3, 2, 2, 3, 1, 3, 0, 1, 1];
    gives(&first, "10110200", &[3]);
    gives(&[3, 2, 3, 2, 1, 3, 0, 1, 1], "10110020", &[2]);
    let third = packed(&[3, 2, 3, 2, 0, 1, 2, 1, 1]);
    assert_eq!(third.order, [1, 3, 2]);
    assert_eq!(third.image, packed(&first).image);
    refused_tables();
    let most = plain::pack_graph(&make::all_roots(30_000)).unwrap();
    assert_eq!(most.trits.len(), 60_001);
    assert_eq!(asked(&DRAWN, 1, 0, 21), [0, 9, 0]);
    assert_eq!(asked(&DRAWN, 1, 0, 22), [33, 0, 0]);
}

/// A table for each refusal from 1 to 6 and 8.
fn refused_tables() {
    for (table, refusal) in [
        (&[2, 0, 0, 1, 1][..], 8),
        (&[1, 0, 0], 8),
        (&[], 1),
        (&[0], 1),
        (&[30_001], 2),
        (&[1, 1, 2], 3),
        (&[1, 0, 1, 2], 4),
        (&[0, 1, 1], 4),
        (&[1, 0, 2, 1, 1], 5),
        (&[0, 0, 7], 6),
        (&[2, 1, 1, 65_535], 2),
        (&[1, 65_535], 1),
        (&[2, 1, 9, 65_535], 3),
    ] {
        assert_eq!(plain::pack(table), Err(refusal), "{table:?}");
    }
}

#[test]
fn drawn_graph() {
    gives(&DRAWN, "101101021011021020020", &[4, 7, 8, 7]);
    let drawn = packed(&DRAWN);
    assert_eq!(drawn.order, [1, 2, 3, 4, 5, 6, 7, 8]);
    assert_eq!(drawn.image.len(), 105);
    let sections = plain::sections(&drawn.trits, &drawn.shadows);
    let counts: Vec<usize> = sections.iter().map(|section| section.count).collect();
    assert_eq!(counts, [21, 4, 8, 4, 4, 1, 1, 1, 1]);
    let fours = |numbers: &[u32]| -> Vec<u8> {
        numbers
            .iter()
            .flat_map(|number| number.to_le_bytes())
            .collect()
    };
    assert_eq!(sections[0].contents, [37, 46, 139, 168, 0]);
    assert_eq!(sections[1].contents, make::bytes(&[4, 7, 8, 7]));
    assert_eq!(sections[2].contents, fours(&[200, 0]));
    assert_eq!(sections[3].contents, fours(&[0, 1, 3, 4]));
    assert_eq!(sections[4].contents, fours(&[7, 13, 19, 16]));
    assert_eq!(asked(&DRAWN, 1, 1, 11), [0, 6, 0]);
    assert_eq!(asked(&DRAWN, 2, 0, 4), [0, 9, 0]);
    assert_eq!(listed(&DRAWN), LISTING);
}

#[test]
fn errors_seen_in_packers() {
    // The last trit of the drawn graph stands in a fifth tryte.
    let drawn = packed(&DRAWN);
    assert_eq!((drawn.trits.len(), drawn.image[0]), (21, 21));
    assert_eq!(
        plain::sections(&drawn.trits, &drawn.shadows)[0]
            .contents
            .len(),
        5
    );
    // Node 7's uses, the last one by 8.
    assert_eq!(asked(&DRAWN, 5, 7, 0), [0, 3, 0]);
    assert_eq!(asked(&DRAWN, 6, 7, 3), [0, 8, 2]);
    assert_eq!(asked(&DRAWN, 6, 7, 4), [33, 0, 0]);
    // L a multiple of 25 has a sample before L.
    let round = plain::pack_graph(&make::loops(22)).unwrap();
    assert_eq!(round.trits.len(), 25);
    let sections = plain::sections(&round.trits, &round.shadows);
    assert_eq!(sections[7].count, 2);
    assert_eq!(sections[7].contents, [0, 0, 2, 1]);
    let opened = plain::open(&round.image).unwrap();
    assert_eq!(plain::answer(&opened, 1, 2, 25), [0, 22, 0]);
    assert_eq!(plain::answer(&opened, 1, 2, 26), [33, 0, 0]);
    // A shadow within n, but of a node not yet seen: 10110200 with H 3, and
    // 10210100 with H 3, whose 2 comes after one 1 only.
    let check_of = |trits: &[u8]| plain::check(&make::image(trits, &[3]));
    assert_eq!(check_of(&[1, 0, 1, 1, 0, 2, 0, 0]), 0);
    assert_eq!(check_of(&[1, 0, 2, 1, 0, 1, 0, 0]), 24);
    // Operands are numbered by the order in which they are seen.
    assert!(listed(&[3, 2, 3, 2, 0, 0, 1, 1]).contains("\n1: 2 3 |\n"));
    assert_eq!(packed(&[3, 2, 3, 2, 0, 0, 1, 1]).order, [1, 3, 2]);
}
