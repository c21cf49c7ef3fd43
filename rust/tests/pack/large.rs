//! The largest tables, and each side of the limits of n and m.

use crate::run::{need, Cases};
use glouds::make::{self, Xorshift};
use glouds::plain::{Graph, MOST_EDGES, MOST_NODES};

/// The largest tables of many shapes, with room one too short and enough.
pub fn large(cases: &mut Cases) {
    let rng = &mut Xorshift::new(17);
    for graph in &make::largest(rng) {
        let table = graph.table();
        let room = need(&table);
        cases.few_rooms(&table);
        let image = cases.accepted(graph).image;
        let new = rng.renumbering(graph.nodes());
        let renumbered = make::renumber(graph, &new);
        assert_eq!(cases.accepted(&renumbered).image, image);

        // A node that no root reaches: the last root, or a fresh node.
        let mut unreached = graph.clone();
        if graph.nodes() < MOST_NODES {
            unreached.operands.push(vec![1]);
            unreached.operands[graph.nodes()].truncate(MOST_EDGES - graph.edges());
        } else {
            unreached.roots.pop();
        }
        let _ = cases.enough(&unreached.table());

        // Damage at the end and at random words, cuts, words appended.
        for _ in 0..12 {
            let mut changed = table.clone();
            let at = rng.below(table.len());
            changed[at] = rng.bits() as u16;
            let _ = cases.table(&changed, room);
            let _ = cases.part(&table, at, room);
        }
        let last = table.len() - 1;
        for word in [0, 30_001, table[last - 1]] {
            let mut changed = table.clone();
            changed[last] = word;
            let _ = cases.table(&changed, room);
        }
        let _ = cases.part(&table, last, room);
        let longer = [&table[..], &[1]].concat();
        assert_eq!(cases.table(&longer, room), Err(6));
    }
}

/// A table of a graph with one operand more at `node`, counted from 0. A count
/// of 65,536 wraps to 0.
fn edge_more(graph: &Graph, node: usize) -> Vec<u16> {
    let mut more = graph.clone();
    more.operands[node].push(1);
    let mut words = vec![more.nodes() as u16];
    for list in &more.operands {
        words.push(list.len() as u16);
        words.extend(list.iter().map(|&operand| operand as u16));
    }
    words.push(more.roots.len() as u16);
    words.extend(more.roots.iter().map(|&root| root as u16));
    words
}

/// Each side of the limits of n and m, whole and cut.
pub fn limits(cases: &mut Cases) {
    let rng = &mut Xorshift::new(19);
    let full = make::random(200, 65_535, 3, rng);
    for node in [0, 1, 100, 199] {
        let table = edge_more(&full, node);
        assert_eq!(cases.enough(&table), Err(2));
    }
    let wrapped = edge_more(&make::loops(65_535), 0);
    assert_eq!(cases.enough(&wrapped), Err(6));
    operand_counts(cases);
    node_counts(cases);
}

/// Counts of operands that take m up to 65,535 or above. Each operand is 1, and
/// there are no roots.
fn operand_counts(cases: &mut Cases) {
    for (counts, refusal) in [
        (&[65_535, 0][..], 8),
        (&[65_535, 1], 2),
        (&[65_534, 1], 8),
        (&[65_534, 2], 2),
        (&[1, 65_535], 2),
        (&[0, 65_535], 8),
        (&[40_000, 40_000], 2),
        (&[32_768, 32_768], 2),
        (&[32_768, 32_767], 8),
        (&[30_000, 30_000, 5_535, 0, 1], 2),
        (&[30_000, 30_000, 5_535, 0, 0], 8),
    ] {
        let mut table = vec![counts.len() as u16];
        for &count in counts {
            table.push(count);
            table.extend(vec![1; usize::from(count)]);
        }
        table.push(0);
        assert_eq!(cases.enough(&table), Err(refusal), "{counts:?}");
    }
}

/// n up to 30,000 or above, and more roots called for than there can be.
fn node_counts(cases: &mut Cases) {
    for n in [29_999, 30_000] {
        let table = make::all_roots(n).table();
        assert!(cases.enough(&table).is_ok());
    }
    for n in [30_001, 32_768, 65_535] {
        let mut table = vec![0; usize::from(n) + 2];
        table[0] = n;
        assert_eq!(cases.enough(&table), Err(2));
    }
    let mut table = make::all_roots(30_000).table();
    table[30_001] = 30_001;
    table.push(1);
    assert_eq!(cases.enough(&table), Err(5));
    assert_eq!(cases.part(&table, 60_002, need(&table)), Err(1));
}
