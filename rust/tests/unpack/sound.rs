//! Proper images: of every short table, of random graphs and of many lengths.

use crate::run::Cases;
use glouds::make::{self, Xorshift};
use glouds::plain::{self, MOST_EDGES, MOST_NODES, MOST_TRITS};

/// Every table of up to 8 words from 0 to 3 that packs, and of 9 and 10 words
/// from 0 to 2.
pub fn every_short_table(cases: &mut Cases) {
    for (radix, lengths) in [(4u16, 0..=8), (3, 9..=10)] {
        for len in lengths {
            for words in make::every_run(radix, len) {
                if let Ok(graph) = plain::read(&words) {
                    if plain::pack_graph(&graph).is_ok() {
                        cases.graph(&graph);
                    }
                }
            }
        }
    }
}

/// Every run of up to 8 trits, with shadows of 1 and with any shadows.
pub fn every_short_trits(cases: &mut Cases) {
    for l in 1..=8 {
        for trits in make::every_trits(l) {
            let first = make::shadows(&trits, |_| 1);
            cases.proper_or_not(&make::image(&trits, &first), 12);
            let any = make::shadows(&trits, |n| 1 + cases.rng.below(n));
            cases.proper_or_not(&make::image(&trits, &any), 12);
        }
    }
}

/// Random graphs, few roots to all roots, few edges to many.
pub fn random_graphs(cases: &mut Cases) {
    let rng = &mut Xorshift::new(67);
    for round in 0..8_000 {
        cases.graph(&make::of_round(round, rng));
    }
}

/// All small lengths in trits, and lengths near 65,725 and the limit.
pub fn lengths(cases: &mut Cases) {
    let rng = &mut Xorshift::new(71);
    let large = [65_524, 65_525, 65_700, 65_724, 65_725, 65_726, 66_000];
    for l in (3..=900).chain(large).chain(MOST_TRITS - 1..=MOST_TRITS) {
        if l <= MOST_EDGES + 3 {
            cases.graph(&make::loops(l - 3));
        }
        let n = ((l - 1) / 2).min(MOST_NODES);
        cases.graph(&make::used_by_all(n, l - 1 - 2 * n));
        let n = n - rng.below(n) / 2;
        let c = n.min((l - 1 - n).saturating_sub(MOST_EDGES) + rng.below(n));
        let c = c.max(1);
        if l - 1 - n - c <= MOST_EDGES && n <= l - 1 - n {
            cases.graph(&make::random(n, l - 1 - n - c, c, rng));
        }
    }
}
