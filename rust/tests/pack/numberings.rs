//! Graphs and their renumberings: images are equal exactly if a renumbering
//! carries one graph to the other.

use crate::run::Cases;
use glouds::make::{self, Xorshift};
use glouds::plain::Graph;
use std::collections::HashMap;

/// Whether a renumbering carries one graph to the other, roots and operands in
/// their orders. All nodes of both must be reached. Goes depth first, so that
/// it has nothing of the level order in it.
pub fn same(one: &Graph, other: &Graph) -> bool {
    if one.nodes() != other.nodes() || one.roots.len() != other.roots.len() {
        return false;
    }
    let mut to = vec![0; one.nodes() + 1];
    let mut from = to.clone();
    let pairs = |a: &[usize], b: &[usize]| -> Vec<(usize, usize)> {
        a.iter().copied().zip(b.iter().copied()).collect()
    };
    let mut stack = pairs(&one.roots, &other.roots);
    while let Some((a, b)) = stack.pop() {
        if to[a] == b && from[b] == a {
            continue;
        }
        let (next_a, next_b) = (&one.operands[a - 1], &other.operands[b - 1]);
        if to[a] != 0 || from[b] != 0 || next_a.len() != next_b.len() {
            return false;
        }
        to[a] = b;
        from[b] = a;
        stack.extend(pairs(next_a, next_b));
    }
    true
}

/// All lists of numbers from 1 to n, up to `most` long.
fn lists(n: usize, most: usize) -> Vec<Vec<usize>> {
    let mut all = vec![Vec::new()];
    let mut from = 0;
    for _ in 0..most {
        let to = all.len();
        for index in from..to {
            for number in 1..=n {
                let longer = [&all[index][..], &[number]].concat();
                all.push(longer);
            }
        }
        from = to;
    }
    all
}

/// Every graph of up to three nodes and two operands a node (two and three,
/// one and six). Images are equal exactly if a renumbering carries one graph to
/// the other, found here by trying them all.
pub fn every_small_graph(cases: &mut Cases) {
    let mut least_of: HashMap<Vec<u8>, Graph> = HashMap::new();
    let mut image_of: HashMap<Graph, Vec<u8>> = HashMap::new();
    for (n, most) in [(1, 6), (2, 3), (3, 2)] {
        let orders: Vec<Vec<usize>> = lists(n, n)
            .into_iter()
            .filter(|list| (1..=n).all(|node| list.iter().filter(|&&x| x == node).count() < 2))
            .collect();
        let numberings: Vec<&Vec<usize>> = orders.iter().filter(|list| list.len() == n).collect();
        let choices = lists(n, most);
        for code in 0..choices.len().pow(n as u32) {
            let operands: Vec<Vec<usize>> = (0..n)
                .map(|index| {
                    choices[code / choices.len().pow(index as u32) % choices.len()].clone()
                })
                .collect();
            for roots in &orders {
                let graph = Graph {
                    operands: operands.clone(),
                    roots: roots.clone(),
                };
                let Ok(packed) = cases.enough(&graph.table()) else {
                    continue;
                };
                let least = numberings
                    .iter()
                    .map(|new| make::renumber(&graph, new))
                    .min_by_key(Graph::table)
                    .unwrap();
                let old = image_of.insert(least.clone(), packed.image.clone());
                assert!(old.is_none_or(|old| old == packed.image), "{graph:?}");
                let old = least_of.insert(packed.image, least.clone());
                assert!(old.is_none_or(|old| old == least), "{graph:?}");
            }
        }
    }
    assert_eq!(least_of.len(), image_of.len());
    assert!(least_of.len() > 1_000);
}

/// A graph with two operands of a node exchanged, with two roots exchanged, with
/// one operand changed, and with one moved to another node.
fn changes(graph: &Graph, rng: &mut Xorshift) -> Vec<Graph> {
    let (n, c) = (graph.nodes(), graph.roots.len());
    let mut changed = vec![graph.clone(); 4];
    let user = rng.below(n);
    let operands = graph.operands[user].len();
    if operands > 0 {
        changed[0].operands[user].swap(rng.below(operands), rng.below(operands));
        changed[2].operands[user][rng.below(operands)] = 1 + rng.below(n);
        let moved = changed[3].operands[user].remove(rng.below(operands));
        changed[3].operands[rng.below(n)].push(moved);
    }
    changed[1].roots.swap(rng.below(c), rng.below(c));
    changed
}

/// Random graphs: renumbered ones give equal images, others different ones.
pub fn random_graphs(cases: &mut Cases) {
    let mut rng = Xorshift::new(11);
    let mut earlier = make::all_roots(1);
    let mut earlier_image = cases.accepted(&earlier).image;
    for round in 0..6_000 {
        let graph = make::of_round(round, &mut rng);
        let packed = cases.accepted(&graph);

        let new = rng.renumbering(graph.nodes());
        let renumbered = make::renumber(&graph, &new);
        let again = cases.accepted(&renumbered);
        assert_eq!(again.image, packed.image);
        for (&old, &node) in packed.order.iter().zip(&again.order) {
            assert_eq!(new[usize::from(old) - 1], usize::from(node));
        }

        for other in &changes(&graph, &mut rng) {
            if let Ok(after) = cases.enough(&other.table()) {
                assert_eq!(after.image == packed.image, same(&graph, other));
            }
        }
        assert_eq!(earlier_image == packed.image, same(&earlier, &graph));
        (earlier, earlier_image) = (graph, packed.image);
    }
    for _ in 0..6_000 {
        let n = 1 + rng.below(12);
        let (m, c) = (rng.below(20), rng.below(n + 1));
        let _ = cases.enough(&make::wild(n, m, c, &mut rng).table());
    }
}
