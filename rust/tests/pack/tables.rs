//! The tables that document 01 names, every short run of words, and graphs of
//! many lengths.

use crate::run::Cases;
use glouds::make::{self, Xorshift};

/// The tables that document 01 names.
pub fn written_tables() -> Vec<Vec<u16>> {
    [
        &[0, 0][..],
        &[1, 0, 1, 1],
        &[1, 1, 1, 1, 1],
        &[2, 2, 2, 2, 0, 1, 1],
        &[2, 1, 2, 0, 2, 1, 2],
        &[2, 1, 2, 0, 2, 2, 1],
        &[3, 2, 2, 3, 1, 3, 0, 1, 1],
        &[3, 2, 3, 2, 1, 3, 0, 1, 1],
        &[3, 2, 3, 2, 0, 1, 2, 1, 1],
        &make::DRAWN,
        &[2, 0, 0, 1, 1],
        &[1, 0, 0],
        &[],
        &[0],
        &[30_001],
        &[1, 1, 2],
        &[1, 0, 1, 2],
        &[0, 1, 1],
        &[1, 0, 2, 1, 1],
        &[0, 0, 7],
        &[2, 1, 1, 65_535],
        &[1, 65_535],
        &[2, 1, 9, 65_535],
        &[1, 0, 65_535],
        &[30_000],
        &[65_535, 0, 0],
    ]
    .map(<[u16]>::to_vec)
    .to_vec()
}

/// Every run of up to 8 words from 0 to 3, and of 9 and 10 words from 0 to 2.
pub fn every_short_run(cases: &mut Cases) {
    for (radix, lengths) in [(4u16, 0..=8), (3, 9..=10)] {
        for len in lengths {
            for words in make::every_run(radix, len) {
                let _ = cases.enough(&words);
            }
        }
    }
}

/// Graphs of many lengths.
pub fn lengths(cases: &mut Cases) {
    let mut rng = Xorshift::new(13);
    for l in make::lengths() {
        for graph in make::of_length(l, &mut rng) {
            assert_eq!(cases.accepted(&graph).trits.len(), l);
        }
    }
}
