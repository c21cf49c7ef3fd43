//! Graphs by the dozen: of every length, of small shapes and of the largest.

use super::*;
use crate::plain::{self, Graph, MOST_EDGES, MOST_NODES};

/// Graphs with just L trits: loops, roots with a shared operand, and random.
pub fn of_length(l: usize, rng: &mut Xorshift) -> Vec<Graph> {
    let mut list = Vec::new();
    if (3..=MOST_EDGES + 3).contains(&l) {
        list.push(loops(l - 3));
    }
    // n roots and m edges, as many nodes as there may be.
    let n = ((l - 1) / 2).min(MOST_NODES);
    let m = l - 1 - 2 * n;
    if n > 0 && m <= MOST_EDGES {
        list.push(used_by_all(n, m));
    }
    if l >= 3 {
        let n = 1 + rng.below(n);
        let c = (1 + rng.below(n)).max((l - 1 - n).saturating_sub(MOST_EDGES));
        if c <= n {
            list.push(random(n, l - 1 - n - c, c, rng));
        }
    }
    list
}

/// All small L, so that multiples of 5, 25 and 275 are met and missed, and some
/// near 65,725 and near the limit.
pub fn lengths() -> impl Iterator<Item = usize> {
    let near = |l: usize| l - 2..=l + 2;
    (1..=1_150)
        .chain(near(65_450))
        .chain(near(65_525))
        .chain(65_698..=65_702)
        .chain(65_720..=65_730)
        .chain(near(65_750))
        .chain(near(66_000))
        .chain([125_525, 125_534, 125_535, 125_536])
}

/// A random graph for each of many rounds: few roots to all roots, few edges to
/// many, and now and then some hundreds of nodes.
pub fn of_round(round: usize, rng: &mut Xorshift) -> Graph {
    let most = if round.is_multiple_of(50) { 700 } else { 30 };
    let n = 1 + rng.below(most);
    let c = match round % 3 {
        0 => 1,
        1 => n,
        _ => 1 + rng.below(n),
    };
    let m = n - c + rng.below([2, 10, 3 * most][round % 7 % 3]);
    random(n, m, c, rng)
}

/// Small graphs of many shapes, the empty one and the drawn one among them.
pub fn small(rng: &mut Xorshift) -> Vec<Graph> {
    let mut graphs = vec![
        Graph::default(),
        plain::read(&DRAWN).expect("the drawn graph"),
        chain(4),
        all_roots(4),
        used_by_all(3, 7),
        loops(0),
        loops(1),
        loops(22), // L = 25
    ];
    for _ in 0..12 {
        let n = 1 + rng.below(8);
        let c = 1 + rng.below(n);
        graphs.push(random(n, n - c + rng.below(8), c, rng));
    }
    graphs
}

/// The largest graphs of many shapes.
pub fn largest(rng: &mut Xorshift) -> Vec<Graph> {
    let mut late = chain(2); // node 1 uses itself, then node 2
    late.operands[0].splice(..0, vec![1; 65_534]);
    let mut reversed_roots = all_roots(30_000);
    reversed_roots.roots.reverse();
    vec![
        chain(30_000),
        chain_back(30_000),
        cycle(30_000),
        doubled_chain(30_000),
        star(30_000),
        all_roots(30_000),
        reversed_roots,
        loops(65_535),
        pair(65_535),
        late,
        used_by_all(30_000, 65_535),
        used_by_all(30_000, 30_000),
        used_by_all(64, 65_535),
        used_in_turn(30_000, 65_535),
        random(30_000, 65_535, 1, rng),
        random(30_000, 65_535, 30_000, rng),
        random(30_000, 30_100, 1, rng),
        random(29_953, 65_000, 5_000, rng),
        random(300, 65_535, 7, rng),
    ]
}
