//! Graphs of one shape or at random, and their renumberings.

use super::Xorshift;
use crate::plain::{Graph, MOST_EDGES, MOST_NODES};

/// `graph` with node i called `new[i - 1]`.
pub fn renumber(graph: &Graph, new: &[usize]) -> Graph {
    let carry = |list: &Vec<usize>| list.iter().map(|&node| new[node - 1]).collect();
    let mut operands = vec![Vec::new(); graph.nodes()];
    for (index, list) in graph.operands.iter().enumerate() {
        operands[new[index] - 1] = carry(list);
    }
    Graph {
        operands,
        roots: carry(&graph.roots),
    }
}

/// `graph` with its nodes numbered in the order of an order list.
pub fn in_order(graph: &Graph, order: &[u16]) -> Graph {
    let mut new = vec![0; graph.nodes()];
    for (index, &node) in order.iter().enumerate() {
        new[usize::from(node) - 1] = index + 1;
    }
    renumber(graph, &new)
}

/// 1 uses 2, 2 uses 3 and so on to n; the root is 1. L = 2n + 1.
pub fn chain(n: usize) -> Graph {
    let mut operands: Vec<Vec<usize>> = (2..=n).map(|node| vec![node]).collect();
    operands.push(Vec::new());
    Graph {
        operands,
        roots: vec![1],
    }
}

/// As `chain`, but numbered from the last node to the first.
pub fn chain_back(n: usize) -> Graph {
    let turned: Vec<usize> = (1..=n).rev().collect();
    renumber(&chain(n), &turned)
}

/// As `chain`, but the last node uses the first. L = 2n + 2.
pub fn cycle(n: usize) -> Graph {
    let mut graph = chain(n);
    graph.operands[n - 1].push(1);
    graph
}

/// As `chain`, but each node uses the next twice. L = 3n.
pub fn doubled_chain(n: usize) -> Graph {
    let mut graph = chain(n);
    for list in &mut graph.operands {
        list.extend_from_within(..);
    }
    graph
}

/// Node 1, the root, uses all others once. L = 2n + 1.
pub fn star(n: usize) -> Graph {
    let mut graph = chain(n);
    graph.operands = vec![Vec::new(); n];
    graph.operands[0] = (2..=n).collect();
    graph
}

/// Node 1, the root, uses node 2 m times. L = m + 4.
pub fn pair(m: usize) -> Graph {
    let mut graph = chain(2);
    graph.operands[0] = vec![2; m];
    graph
}

/// n roots and no edges. L = 2n + 1.
pub fn all_roots(n: usize) -> Graph {
    Graph {
        operands: vec![Vec::new(); n],
        roots: (1..=n).collect(),
    }
}

/// One node, the root, that uses itself m times. L = m + 3.
pub fn loops(m: usize) -> Graph {
    Graph {
        operands: vec![vec![1; m]],
        roots: vec![1],
    }
}

/// n roots, and m edges dealt out to them in turn, all to the last node.
/// L = 2n + m + 1.
pub fn used_by_all(n: usize, m: usize) -> Graph {
    let uses = |index| m / n + usize::from(index < m % n);
    Graph {
        operands: (0..n).map(|index| vec![n; uses(index)]).collect(),
        roots: (1..=n).collect(),
    }
}

/// n roots, of which the last uses 1, 2, .., n in turn, m times in all.
/// L = 2n + m + 1.
pub fn used_in_turn(n: usize, m: usize) -> Graph {
    let mut graph = all_roots(n);
    graph.operands[n - 1] = (0..m).map(|edge| 1 + edge % n).collect();
    graph
}

/// n roots, of which the last uses m at random. L = 2n + m + 1.
pub fn used_at_random(n: usize, m: usize, rng: &mut Xorshift) -> Graph {
    let mut graph = all_roots(n);
    graph.operands[n - 1] = (0..m).map(|_| 1 + rng.below(n)).collect();
    graph
}

/// A random graph of n nodes and m edges, with c roots that reach them all, in
/// a random numbering: m must be at least n - c. L = n + m + c + 1.
pub fn random(n: usize, m: usize, c: usize, rng: &mut Xorshift) -> Graph {
    assert!(c <= n && n <= MOST_NODES && n <= c + m && m <= MOST_EDGES);
    assert!(c > 0 || n == 0 && m == 0);
    let mut operands = vec![Vec::new(); n];
    for node in c + 1..=n {
        operands[rng.below(node - 1)].push(node);
    }
    for _ in n - c..m {
        operands[rng.below(n)].push(1 + rng.below(n));
    }
    for list in &mut operands {
        rng.shuffle(list);
    }
    let graph = Graph {
        operands,
        roots: (1..=c).collect(),
    };
    renumber(&graph, &rng.renumbering(n))
}

/// A random graph whose roots may miss some nodes.
pub fn wild(n: usize, m: usize, c: usize, rng: &mut Xorshift) -> Graph {
    assert!(c <= n && n <= MOST_NODES && m <= MOST_EDGES);
    let mut operands = vec![Vec::new(); n];
    for _ in 0..m {
        operands[rng.below(n)].push(1 + rng.below(n));
    }
    let mut roots = rng.renumbering(n);
    roots.truncate(c);
    Graph { operands, roots }
}
