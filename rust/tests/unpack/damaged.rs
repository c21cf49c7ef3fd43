//! Images with damage: small, of middle size, the largest, at the limits, and
//! random bytes.

use crate::run::Cases;
use glouds::make::{self, Xorshift};
use glouds::plain::{self, MOST_EDGES, MOST_NODES};

/// Small images with all damage, and every room.
pub fn small(cases: &mut Cases) {
    let rng = &mut Xorshift::new(73);
    for graph in &make::small(rng) {
        let image = cases.graph(graph);
        let need = graph.table().len();
        for room in 0..need + 9 {
            let _ = cases.part(&image, image.len(), room);
        }
        for len in 0..image.len() {
            cases.cut(&image, len, need);
        }
        cases.bytes(&image, need);
        cases.more(&image, need);
        cases.sections(&image, need);
        cases.random(&image, need, 200);
        cases.remade(&image, need, 200);
    }
}

/// Images of several mark words and samples.
pub fn middle(cases: &mut Cases) {
    let rng = &mut Xorshift::new(79);
    for graph in [
        make::random(200, 330, 20, rng),
        make::random(180, 189, 180, rng), // L = 550
        make::random(128, 300, 1, rng),
        make::loops(272), // L = 275
        make::used_by_all(65, 200),
        make::chain(200),
        make::all_roots(200),
    ] {
        let image = cases.graph(&graph);
        let need = graph.table().len();
        for len in 0..image.len() {
            cases.cut(&image, len, need);
        }
        cases.more(&image, need);
        cases.sections(&image, need);
        cases.random(&image, need, 600);
        cases.remade(&image, need, 600);
    }
}

/// The largest of many shapes.
pub fn large(cases: &mut Cases) {
    let rng = &mut Xorshift::new(83);
    for (index, graph) in [
        make::chain(30_000),
        make::chain_back(30_000),
        make::cycle(30_000),
        make::doubled_chain(30_000),
        make::star(30_000),
        make::all_roots(30_000),
        make::loops(65_535),
        make::pair(65_535),
        make::used_by_all(30_000, 65_535),
        make::used_by_all(64, 65_535),
        make::random(30_000, 65_535, 1, rng),
        make::random(30_000, 65_535, 30_000, rng),
        make::random(30_000, 30_100, 1, rng),
        make::random(29_953, 65_000, 5_000, rng),
        make::random(300, 65_535, 7, rng),
    ]
    .iter()
    .enumerate()
    {
        let image = cases.graph(graph);
        let renumbered = make::renumber(graph, &rng.renumbering(graph.nodes()));
        assert!(cases.graph(&renumbered) == image);
        let need = graph.table().len();
        cases.more(&image, need);
        if index % 3 == 2 {
            cases.sections(&image, need);
        }
        cases.random(&image, need, 16);
        cases.remade(&image, need, 6);
    }
}

/// Each side of the limits of L, n and m, by hand from trits.
pub fn limits(cases: &mut Cases) {
    let rng = &mut Xorshift::new(89);
    for graph in [
        make::all_roots(30_000),
        make::chain(30_000),
        make::loops(65_535),
        make::used_by_all(64, 65_535),
        make::random(30_000, 65_533, 29_000, rng),
        make::random(29_998, 65_535, 29_000, rng),
        make::random(30_000, 65_535, 30_000, rng),
    ] {
        let packed = plain::pack_graph(&graph).expect("an accepted graph");
        let (n, m) = (graph.nodes(), graph.edges());
        let (trits, shadows) = (&packed.trits, &packed.shadows);
        // A root more, without operands; an operand more of the last node.
        let root_more = [&[1], &trits[..], &[0]].concat();
        let edge_more = [&trits[..trits.len() - 1], &[2, 0]].concat();
        let longer = [&shadows[..], &[1]].concat();
        for (image, over) in [
            (make::image(&root_more, shadows), n + 1 > MOST_NODES),
            (make::image(&edge_more, &longer), m + 1 > MOST_EDGES),
        ] {
            let need = trits.len() + 3;
            let refusal = if over { 22 } else { 0 };
            assert_eq!(cases.whole(&image, need), refusal);
            if over {
                assert_eq!(cases.whole(&[&image[..], &[0]].concat(), need), 22);
                assert_eq!(cases.damaged(&image, image.len() - 1, need), 22);
            } else {
                cases.proper_or_not(&image, need);
            }
        }
    }
}

/// Random bytes: alone, after a small count, and after proper sections.
pub fn random_bytes(cases: &mut Cases) {
    let rng = &mut Xorshift::new(97);
    for round in 0..8_000 {
        cases.whole(&make::random_bytes(round, rng), 30);
    }
}
