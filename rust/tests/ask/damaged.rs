//! Images with faults and damage: small, of middle size and the largest, and
//! random bytes.

use crate::faults::damaged;
use crate::questions::{every, last_a, last_b, open, questions, Question};
use crate::run::Cases;
use glouds::make::{self, Xorshift};
use glouds::plain::Opened;

/// Small images with all faults and damage.
pub fn small(cases: &mut Cases) {
    let rng = &mut Xorshift::new(109);
    for graph in &make::small(rng) {
        let image = cases.graph(graph);
        // Each question alone, in a batch of its own.
        for question in every(&open(&image)) {
            let tally = cases.tally();
            assert_eq!(cases.ask(&image, &[question], tally).refusal, 0);
        }
        cases.faults(&image);
        cases.lines(&image, 60);
        for (bytes, refusal) in damaged(&image) {
            assert_eq!(cases.none(&bytes), refusal);
        }
        for len in 0..image.len() {
            assert_eq!(cases.maybe(&image, len), 21);
        }
        cases.damages(&image, 600);
    }
}

/// Images of several mark words and samples: every question.
pub fn middle(cases: &mut Cases) {
    let rng = &mut Xorshift::new(113);
    for graph in [
        make::random(200, 330, 20, rng),
        make::random(180, 189, 180, rng), // L = 550
        make::random(128, 300, 1, rng),
        make::random(700, 2_000, 30, rng),
        make::loops(272), // L = 275
        make::used_by_all(65, 200),
        make::used_by_all(129, 129),
        make::chain(200),
        make::all_roots(200),
    ] {
        let image = cases.graph(&graph);
        cases.batches(&image, &mut every(&open(&image)));
        cases.faults(&image);
        cases.lines(&image, 500);
        cases.damages(&image, 300);
    }
}

/// Questions at the first and last numbers of each kind, and next after these.
fn ends(opened: &Opened) -> Vec<Question> {
    let mut list = Vec::new();
    for kind in 0..7 {
        let last = last_a(opened, kind);
        for a in (0..4).chain(last.saturating_sub(4)..=last + 1) {
            let most = last_b(opened, kind, a);
            list.extend((0..4).map(|b| [kind, a, b]));
            list.extend((most.saturating_sub(4)..=most + 1).map(|b| [kind, a, b]));
        }
    }
    list
}

/// The largest of many shapes: every edge, and random questions.
pub fn large(cases: &mut Cases) {
    let rng = &mut Xorshift::new(127);
    for graph in make::largest(rng) {
        let image = cases.graph(&graph);
        let opened = open(&image);
        cases.batches(&image, &mut questions(&opened, 30_000, rng));
        let tally = cases.tally();
        assert_eq!(cases.ask(&image, &ends(&opened), tally).refusal, 0);
        for (bytes, refusal) in damaged(&image) {
            assert_eq!(cases.maybe(&bytes, bytes.len()), refusal);
            assert_eq!(cases.none(&bytes), refusal);
        }
        for round in 0..9 {
            let mut changed = image.to_vec();
            let section = make::starts(&image)[round % 9];
            let at = section + rng.below(image.len() - section);
            changed[at] ^= 1 << rng.below(8);
            cases.maybe(&changed, changed.len());
        }
    }
    // Long batches at the line of the tally, and one that answers and refuses
    // more than 16 bits count.
    let image = cases.graph(&make::random(30_000, 65_535, 100, rng));
    cases.lines(&image, 20_000);
    cases.lines(&image, 65_537);
    let [node, none] = [[3, 1, 0], [3, 0, 0]];
    let many: Vec<Question> = (0..140_000)
        .map(|i| if i % 2 == 0 { node } else { none })
        .collect();
    let tally = cases.tally();
    assert_eq!(cases.ask(&image, &many, tally).refusal, 0);
}

/// Random bytes: alone, after a small count, and after proper sections.
pub fn random_bytes(cases: &mut Cases) {
    let rng = &mut Xorshift::new(131);
    for round in 0..6_000 {
        let bytes = make::random_bytes(round, rng);
        cases.maybe(&bytes, bytes.len());
    }
}
