//! glouds_pack beside the plain packer, and glouds_check beside glouds_pack:
//! eight shapes, five sizes.

use crate::times::{self, Times};
use glouds::make::{self, Xorshift};
use glouds::plain::{self, Graph};
use std::hint::black_box;

/// Each timing repeats the call until it has gone over this many trits.
const TRITS_A_TIMING: usize = 60_000;

/// A shape: its name and the graph of about so many trits, at most the largest.
type Shape = (&'static str, fn(usize) -> Graph);

const SHAPES: [Shape; 8] = [
    ("chain", |l| make::chain((l / 2).min(30_000))),
    ("all roots", |l| make::all_roots((l / 2).min(30_000))),
    ("random, shared operands", |l| {
        let n = (l * 3 / 10).min(30_000);
        let m = (n * 65_535) / 30_000;
        make::random(n, m, 1, &mut Xorshift::new(31))
    }),
    ("one node used by all", |l| {
        let n = (l * 30_000 / 125_535).min(30_000);
        make::used_by_all(n, n * 65_535 / 30_000)
    }),
    ("loops on one node", |l| make::loops((l - 3).min(65_535))),
    ("roots used in turn", |l| {
        let n = (l * 30_000 / 125_535).min(30_000);
        make::used_in_turn(n, n * 65_535 / 30_000)
    }),
    ("20 roots used in turn", |l| {
        make::used_in_turn(20, (l - 41).min(65_535))
    }),
    ("roots used at random", |l| {
        let n = (l * 8_300 / 82_136).min(8_300);
        make::used_at_random(n, n * 65_535 / 8_300, &mut Xorshift::new(37))
    }),
];

/// A family: its name and the graph of n nodes and 65,535 edges.
type Family = (&'static str, fn(usize) -> Graph);

const FAMILIES: [Family; 3] = [
    ("random", |n| {
        make::random(n, 65_535, 1, &mut Xorshift::new(41))
    }),
    ("roots used in turn", |n| make::used_in_turn(n, 65_535)),
    ("roots used at random", |n| {
        make::used_at_random(n, 65_535, &mut Xorshift::new(43))
    }),
];

/// Nodes of each family; the checker goes another way up to 2,048.
const NODES: [usize; 9] = [5, 50, 500, 2_048, 2_049, 5_000, 8_300, 15_000, 30_000];

/// Trits aimed at; the last is above every shape's largest.
const SIZES: [usize; 5] = [1_000, 4_000, 16_000, 50_000, 130_000];

/// L of one graph, and nanoseconds a trit of the three functions.
pub struct Measured {
    pub trits: usize,
    pub pack: Times,
    pub check: Times,
    pub plain: Times,
}

/// Times the functions on one graph.
pub fn measure(graph: &Graph) -> Measured {
    let table = graph.table();
    let expected = plain::pack(&table).expect("an accepted table");
    let trits = expected.trits.len();
    let mut order = vec![0; graph.nodes()];
    let mut work = vec![0; 3 * graph.nodes()];
    let mut image = vec![0; expected.image.len()];
    let [pack, check, plain] = times::in_turns(
        TRITS_A_TIMING.div_ceil(trits),
        trits,
        [
            &mut || {
                let length = glouds::pack(&table, &mut order, &mut work, &mut image);
                assert_eq!(length, Ok(expected.image.len()));
            },
            &mut || assert_eq!(glouds::check(&expected.image), 0),
            &mut || {
                let packed = plain::pack(black_box(&table)).expect("an accepted table");
                assert_eq!(packed.image.len(), expected.image.len());
            },
        ],
    );
    assert!(order == expected.order && image == expected.image);
    Measured {
        trits,
        pack,
        check,
        plain,
    }
}

/// Measures all shapes and sizes and prints two blocks.
pub fn run() {
    let mut lines = Vec::new();
    for (name, shape) in SHAPES {
        for size in SIZES {
            lines.push((name, measure(&shape(size))));
        }
    }
    println!();
    println!("Packing beside the plain packer, which allocates its lists in each call, and");
    println!("checking the image beside packing: nanoseconds a trit.");
    times::heading(["shape", "trits"], ["pack med", "plain med"]);
    for (name, m) in &lines {
        times::line(name, m.trits, [&m.pack, &m.plain]);
    }
    times::heading(["shape", "trits"], ["check med", "pack med"]);
    for (name, m) in &lines {
        times::line(name, m.trits, [&m.check, &m.pack]);
    }
}

/// Measures the families and prints a block.
pub fn sweep() {
    println!();
    println!("Checking beside packing where few or many nodes have 65,535 edges: nanoseconds a");
    println!("trit.");
    times::heading(["family", "nodes"], ["check med", "pack med"]);
    for (name, family) in FAMILIES {
        for n in NODES {
            let m = measure(&family(n));
            times::line(name, n, [&m.check, &m.pack]);
        }
    }
}
