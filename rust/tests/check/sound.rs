//! Images that the library packs, and those of every short run of trits.

use crate::run::Cases;
use glouds::make::{self, Xorshift};

/// Every table that packs, packed by the library, is accepted.
pub fn packed(cases: &mut Cases) {
    let mut order = vec![0; 30_000];
    let mut work = vec![0; 90_000];
    let mut image = vec![0; 1 << 20];
    let mut accepted = 0;
    let mut check = |table: &[u16]| {
        if let Ok(length) = glouds::pack(table, &mut order, &mut work, &mut image) {
            cases.refused(&image[..length], 0);
            accepted += 1;
        }
    };
    // Every run of up to 8 words from 0 to 3.
    for len in 0..=8 {
        for words in make::every_run(4, len) {
            check(&words);
        }
    }
    let rng = &mut Xorshift::new(37);
    for round in 0..8_000 {
        let most = if round % 50 == 0 { 700 } else { 30 };
        let n = 1 + rng.below(most);
        let c = [1, n, 1 + rng.below(n)][round % 3];
        let m = n - c + rng.below([2, 10, 3 * most][round % 7 % 3]);
        check(&make::random(n, m, c, rng).table());
    }
    for l in make::lengths() {
        for graph in make::of_length(l, rng) {
            check(&graph.table());
        }
    }
    for graph in make::largest(rng) {
        check(&graph.table());
    }
    println!("check: {accepted} packed images accepted");
    assert!(accepted > 10_000);
}

/// Every run of up to nine trits, with shadows that may point ahead.
pub fn every_trits(cases: &mut Cases) {
    for l in 1..=9 {
        for trits in make::every_trits(l) {
            let any = make::shadows(&trits, |n| 1 + cases.rng.below(n));
            cases.whole(&make::image(&trits, &any));
            let first = make::shadows(&trits, |_| 1);
            cases.whole(&make::image(&trits, &first));
        }
    }
}
