//! Proper images: of every short table, of random graphs and of many lengths.

use crate::questions::{every, open, questions};
use crate::run::Cases;
use glouds::make::{self, Xorshift};
use glouds::{owned, plain};

/// Every table of up to 7 words from 0 to 3 that packs, and of 8 to 10 words
/// from 0 to 2, with every question.
pub fn every_short_table(cases: &mut Cases) {
    for (radix, lengths) in [(4u16, 0..=7), (3, 8..=10)] {
        for len in lengths {
            for words in make::every_run(radix, len) {
                if let Ok(graph) = plain::read(&words) {
                    if plain::pack_graph(&graph).is_ok() {
                        let image = cases.graph(&graph);
                        cases.batches(&image, &mut every(&open(&image)));
                        cases.none(&image);
                    }
                }
            }
        }
    }
}

/// Every run of up to 8 trits, with any shadows: images proper or not.
pub fn every_short_trits(cases: &mut Cases) {
    for l in 1..=8 {
        for (code, trits) in make::every_trits(l).enumerate() {
            let any = make::shadows(&trits, |n| 1 + cases.rng.below(n));
            let image = make::image(&trits, &any);
            if cases.maybe(&image, image.len()) == 0 {
                cases.batches(&image, &mut every(&open(&image)));
            }
            if code % 16 == 0 {
                cases.none(&image);
            }
        }
    }
}

/// Random graphs, few roots to all roots, few edges to many: every question of
/// small ones, of the others many.
pub fn random_graphs(cases: &mut Cases) {
    let rng = &mut Xorshift::new(103);
    for round in 0..3_000 {
        let image = cases.graph(&make::of_round(round, rng));
        let opened = open(&image);
        let mut list = if round % 4 == 0 {
            every(&opened)
        } else {
            questions(&opened, 300, rng)
        };
        cases.batches(&image, &mut list);
    }
}

/// All small lengths in trits, so that multiples of 5, 25 and 275 are met and
/// missed, and some near 65,725 and the limit: every place, or many.
pub fn lengths(cases: &mut Cases) {
    let rng = &mut Xorshift::new(107);
    for l in make::lengths() {
        if l > 65_000 && l % 25 > 1 && l % 5 != 1 {
            continue;
        }
        for graph in make::of_length(l, rng) {
            let (_, image) = owned::pack(&graph.table()).unwrap();
            let opened = open(&image);
            let mut list = questions(&opened, 300, rng);
            let low = l.saturating_sub(280) as u32;
            for place in low..=l as u32 + 1 {
                list.push([0, place, 0]);
                list.push([1, rng.below(3) as u32, place]);
            }
            for trit in 0..3 {
                let count = opened.places[trit as usize].len() as u32;
                for b in count.saturating_sub(30)..=count + 1 {
                    list.push([2, trit, b]);
                }
                list.push([1, trit, l as u32]);
                list.push([1, trit, l as u32 + 1]);
            }
            rng.shuffle(&mut list);
            let tally = cases.tally();
            assert_eq!(cases.ask(&image, &list, tally).refusal, 0);
        }
    }
}
