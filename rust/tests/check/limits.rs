//! Each side of the limits of L, n and m.

use crate::made::{image_of, inserted, made, Made};
use crate::run::Cases;
use glouds::make::{self, with, Xorshift};
use glouds::plain::MOST_TRITS;

/// A root more, which has no operands.
fn root_more(image: &Made) -> Made {
    let trits = [&[1], &image.trits[..], &[0]].concat();
    made(&trits, &image.shadows)
}

/// A last operand more, a shadow of 1.
fn edge_more(image: &Made) -> Made {
    let trits = inserted(&image.trits, image.trits.len() - 1, 2);
    made(&trits, &[&image.shadows[..], &[1]].concat())
}

/// Each side of the limits of L, n and m, by hand from trits.
pub fn limits(cases: &mut Cases) {
    let rng = &mut Xorshift::new(59);
    let above = within(cases, rng);
    for image in &above {
        nodes_or_edges_above(cases, image);
    }
    let full = image_of(&make::random(30_000, 65_535, 30_000, rng));
    assert_eq!(full.trits.len(), MOST_TRITS);
    trits_above(cases, &full);
    counts_above(cases, &[&full, &image_of(&make::loops(5)), &above[0]]);
    let bytes = with(&full.bytes, 0, 4, MOST_TRITS as u64);
    assert_eq!(cases.part(&bytes, 4), 21);
}

/// Checks images at the limits of n and m, and gives some with n, m or both
/// above.
fn within(cases: &mut Cases, rng: &mut Xorshift) -> Vec<Made> {
    let most_nodes = [
        make::all_roots(30_000),
        make::chain(30_000),
        make::random(30_000, 65_533, 29_000, rng),
    ];
    let most_edges = [
        make::loops(65_535),
        make::used_by_all(64, 65_535),
        make::random(29_998, 65_535, 29_000, rng),
    ];
    let mut above = Vec::new();
    for graph in &most_nodes {
        let image = image_of(graph);
        cases.refused(&image.bytes, 0);
        cases.refused(&edge_more(&image).bytes, 0);
        above.push(root_more(&image));
        above.push(edge_more(&root_more(&image)));
    }
    for graph in &most_edges {
        let image = image_of(graph);
        cases.refused(&image.bytes, 0);
        cases.refused(&root_more(&image).bytes, 0);
        above.push(edge_more(&image));
        above.push(root_more(&edge_more(&image)));
        above.push(edge_more(&edge_more(&image)));
    }
    let both = image_of(&make::random(30_000, 65_535, 1, rng));
    above.push(edge_more(&root_more(&both)));
    above
}

/// n or m above, and L still within: after section 1's own rules, before the
/// faults of other sections.
fn nodes_or_edges_above(cases: &mut Cases, image: &Made) {
    assert!(image.trits.len() <= MOST_TRITS);
    let bytes = &image.bytes;
    let (first, second) = (image.end(0), image.starts()[1]);
    cases.refused(bytes, 22);
    cases.refused(&[&bytes[..], &[0]].concat(), 22);
    for len in [first, first + 1, first + 4, second + 1, bytes.len() - 1] {
        assert_eq!(cases.part(bytes, len.min(bytes.len())), 22);
    }
    for len in [4, 5, first - 1] {
        assert_eq!(cases.part(bytes, len), 21);
    }
    for (index, start) in image.starts().into_iter().enumerate().skip(1) {
        cases.refused(&with(bytes, start - 4, 4, u64::from(u32::MAX)), 22);
        if image.end(index) > start {
            let at = image.end(index) - 1;
            cases.refused(&with(bytes, at, 1, u64::from(!bytes[at])), 22);
        }
    }
    cases.refused(&with(bytes, first - 1, 1, 243), 23);
    cases.refused(&with(bytes, 4, 1, 255), 23);
    cases.rules(image);
    cases.changed_trits(image, 4);
    cases.random_damage(image, 8);
}

/// L above: before all else of section 1. `full` has as many trits as there
/// may be.
fn trits_above(cases: &mut Cases, full: &Made) {
    for image in [
        edge_more(full),
        root_more(full),
        edge_more(&edge_more(full)),
    ] {
        let bytes = &image.bytes;
        cases.refused(bytes, 22);
        for len in [4, 5, 1_000, image.end(0) - 1, image.end(0)] {
            assert_eq!(cases.part(bytes, len), 22);
        }
        cases.refused(&with(bytes, 4, 1, 255), 22);
        cases.refused(&with(bytes, image.end(0) - 1, 1, 255), 22);
    }
}

/// A count of trits above L's limit, and the contents as they were.
fn counts_above(cases: &mut Cases, images: &[&Made]) {
    for image in images {
        for l in [MOST_TRITS as u32 + 1, 131_072, 1 << 24, 1 << 31, u32::MAX] {
            let bytes = with(&image.bytes, 0, 4, u64::from(l));
            cases.refused(&bytes, 22);
            assert_eq!(cases.part(&bytes, 4), 22);
            assert_eq!(cases.part(&bytes, 3), 21);
        }
    }
}
