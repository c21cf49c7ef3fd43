//! A graph's image: its questions in batches, and all its edges by questions.

use crate::questions::Question;
use crate::run::Cases;
use glouds::plain::{self, Graph};
use glouds::{make, owned};

impl Cases {
    /// Questions in any order, first in one batch, then in batches of several
    /// lengths, the tally carried from one to the next.
    pub fn batches(&mut self, image: &[u8], list: &mut [Question]) {
        self.rng.shuffle(list);
        let start = self.tally();
        let whole = self.ask(image, list, start);
        assert_eq!(whole.refusal, 0);
        let mut tally = start;
        let mut rest = &list[..];
        let mut pieces = 0;
        while !rest.is_empty() {
            let most = if pieces < 6 { 4 } else { rest.len() };
            let (piece, left) = rest.split_at(self.rng.below(most + 1).min(rest.len()));
            let given = self.ask(image, piece, tally);
            assert_eq!(given.refusal, 0);
            let from = 3 * (list.len() - rest.len());
            let (piece, whole) = (3 * piece.len(), &whole.answers[from..]);
            assert!(given.answers[..piece] == whole[..piece]);
            (tally, rest) = (given.tally, left);
            pieces += 1;
        }
        assert_eq!(tally, whole.tally);
    }

    /// All operands by kind 3 and 4, or all users by kind 5 and 6: node,
    /// neighbour and sort. The nodes' counts sum to m.
    fn listed(&mut self, image: &[u8], graph: &Graph, kind: u32) -> Vec<[u32; 3]> {
        let n = graph.nodes() as u32;
        let list: Vec<Question> = (1..=n).map(|node| [kind, node, 0]).collect();
        let tally = self.tally();
        let given = self.ask(image, &list, tally);
        assert_eq!(given.tally.refused, tally.refused);
        let counts: Vec<u32> = (0..list.len())
            .map(|at| given.answers[3 * at + 1])
            .collect();
        let sum: usize = counts.iter().map(|&count| count as usize).sum();
        assert_eq!(sum, graph.edges());

        let mut list: Vec<Question> = Vec::new();
        for (node, &count) in (1..).zip(&counts) {
            list.extend((1..=count).map(|b| [kind + 1, node, b]));
        }
        let given = self.ask(image, &list, tally);
        assert_eq!(given.tally.refused, tally.refused);
        let answers = given.answers.chunks(3);
        list.iter()
            .zip(answers)
            .map(|(question, answer)| [question[1], answer[1], answer[2]])
            .collect()
    }

    /// All operands and all users: the same edges, the operands as in `graph`,
    /// which is numbered in level order.
    fn edges(&mut self, image: &[u8], graph: &Graph) {
        let operands = self.listed(image, graph, 3);
        let mut users = self.listed(image, graph, 5);
        let due = graph.operands.iter().enumerate().flat_map(|(index, list)| {
            let pair = move |&operand| (index as u32 + 1, operand as u32);
            list.iter().map(pair)
        });
        assert!(due.eq(operands.iter().map(|&[node, other, _]| (node, other))));
        // One real use of each node that is no root, and it comes first.
        let c = graph.roots.len() as u32;
        let mut before = 0;
        for &[node, _, sort] in &users {
            assert_eq!(sort == 1, node > c && node != before, "node {node}");
            before = node;
        }
        for edge in &mut users {
            edge.swap(0, 1);
        }
        let sorted = |mut list: Vec<_>| {
            list.sort_unstable();
            list
        };
        assert!(sorted(operands) == sorted(users));
    }

    /// A graph's image, which the plain packer gives too, with all its edges.
    pub fn graph(&mut self, graph: &Graph) -> Vec<u8> {
        self.graphs += 1;
        let packed = plain::pack_graph(graph).expect("an accepted graph");
        let (order, image) = owned::pack(&graph.table()).unwrap();
        assert!(order == packed.order && image == packed.image, "{graph:?}");
        self.edges(&image, &make::in_order(graph, &order));
        image
    }
}
