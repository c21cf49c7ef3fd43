//! The cases that document 01 writes out, and empty slices.

use crate::questions::Question;
use glouds::make::DRAWN;
use glouds::{owned, Tally};

/// One question's answer.
fn one(image: &[u8], question: Question) -> [u32; 3] {
    let (mut answer, mut tally) = ([7; 3], Tally::default());
    assert_eq!(glouds::ask(image, &question, &mut answer, &mut tally), 0);
    assert_eq!(tally.asked, 1);
    assert_eq!(tally.answered, u32::from(answer[0] == 0));
    assert_eq!(tally.refused, u32::from(answer[0] != 0));
    answer
}

/// The operands of a node by kind 3 and 4, or its users by kind 5 and 6.
fn list(image: &[u8], kind: u32, node: u32) -> Vec<(u32, u32)> {
    let [code, count, sort] = one(image, [kind, node, 0]);
    assert_eq!((code, sort), (0, 0));
    assert_eq!(one(image, [kind + 1, node, 0]), [33, 0, 0]);
    assert_eq!(one(image, [kind + 1, node, count + 1]), [33, 0, 0]);
    let neighbour = |b| {
        let [code, value, sort] = one(image, [kind + 1, node, b]);
        assert_eq!(code, 0);
        (value, sort)
    };
    (1..=count).map(neighbour).collect()
}

/// The operands and users of each node of the drawn graph.
fn drawn_edges(drawn: &[u8]) {
    let operands: [&[(u32, u32)]; 8] = [
        &[(2, 1), (3, 1)],
        &[(4, 1)],
        &[(4, 2), (5, 1)],
        &[(6, 1), (7, 1)],
        &[(7, 2), (8, 1)],
        &[(8, 2)],
        &[],
        &[(7, 2)],
    ];
    let users: [&[(u32, u32)]; 8] = [
        &[],
        &[(1, 1)],
        &[(1, 1)],
        &[(2, 1), (3, 2)],
        &[(3, 1)],
        &[(4, 1)],
        &[(4, 1), (5, 2), (8, 2)],
        &[(5, 1), (6, 2)],
    ];
    for node in 1..=8 {
        assert_eq!(list(drawn, 3, node), operands[node as usize - 1]);
        assert_eq!(list(drawn, 5, node), users[node as usize - 1]);
    }
}

/// The trits of the drawn graph, and questions on both sides of each line.
fn drawn_questions(drawn: &[u8]) {
    for (place, trit) in "101101021011021020020".bytes().enumerate() {
        let due = [0, u32::from(trit - b'0'), 0];
        assert_eq!(one(drawn, [0, place as u32, 0]), due);
    }
    for (question, answer) in [
        ([1, 1, 11], [0, 6, 0]),
        ([2, 0, 4], [0, 9, 0]),
        ([1, 0, 21], [0, 9, 0]),
        ([1, 1, 21], [0, 8, 0]),
        ([1, 2, 21], [0, 4, 0]),
        ([1, 2, 22], [33, 0, 0]),
        ([0, 21, 0], [32, 0, 0]),
        ([0, 21, 1], [32, 0, 0]),
        ([0, 20, 1], [33, 0, 0]),
        ([1, 3, 22], [32, 0, 0]),
        ([2, 2, 4], [0, 19, 0]),
        ([2, 2, 5], [33, 0, 0]),
        ([2, 2, 0], [33, 0, 0]),
        ([3, 0, 0], [32, 0, 0]),
        ([5, 9, 1], [32, 0, 0]),
        ([5, 8, 1], [33, 0, 0]),
        ([7, 9, 9], [31, 0, 0]),
        ([u32::MAX, 0, 0], [31, 0, 0]),
    ] {
        assert_eq!(one(drawn, question), answer, "{question:?}");
    }
}

/// A node that uses itself, a value times itself, and the empty graph.
fn small_graphs() {
    let (_, itself) = owned::pack(&[1, 1, 1, 1, 1]).unwrap();
    assert_eq!(list(&itself, 5, 1), [(1, 2)]);
    let (_, squared) = owned::pack(&[2, 2, 2, 2, 0, 1, 1]).unwrap();
    assert_eq!(list(&squared, 5, 2), [(1, 1), (1, 2)]);
    assert_eq!(list(&squared, 3, 1), [(2, 1), (2, 2)]);
    let (_, empty) = owned::pack(&[0, 0]).unwrap();
    assert_eq!(one(&empty, [0, 0, 0]), [0, 0, 0]);
    assert_eq!(one(&empty, [1, 0, 1]), [0, 1, 0]);
    assert_eq!(one(&empty, [3, 0, 0]), [32, 0, 0]);
    assert_eq!(one(&empty, [3, 1, 0]), [32, 0, 0]);
}

/// Document 01's own cases, without the plain answerer.
#[test]
fn cases_of_the_document() {
    let (_, drawn) = owned::pack(&DRAWN).unwrap();
    drawn_edges(&drawn);
    drawn_questions(&drawn);
    small_graphs();
}

/// Rust's empty slices: their pointers point at nothing.
#[test]
fn empty_slices() {
    let (bytes, words, mut answers) = (Vec::new(), Vec::new(), Vec::new());
    let (_, image) = owned::pack(&[0, 0]).unwrap();
    let start = Tally {
        asked: 7,
        answered: 8,
        refused: u32::MAX,
    };
    let mut tally = start;
    assert_eq!(glouds::ask(&bytes, &words, &mut answers, &mut tally), 21);
    assert_eq!(glouds::ask(&image, &words, &mut answers, &mut tally), 0);
    assert_eq!(glouds::ask(&bytes, &[0], &mut answers, &mut tally), 41);
    assert_eq!(glouds::ask(&image, &[0; 3], &mut answers, &mut tally), 42);
    let mut answers = vec![9; 4];
    assert_eq!(glouds::ask(&bytes, &[0; 3], &mut answers, &mut tally), 43);
    assert_eq!(glouds::ask(&image, &words, &mut answers, &mut tally), 0);
    assert_eq!((&answers[..], tally), (&[9; 4][..], start));
    tally.refused -= 1;
    assert_eq!(glouds::ask(&bytes, &[0; 3], &mut answers, &mut tally), 21);
    assert_eq!(glouds::ask(&image, &[0; 3], &mut answers, &mut tally), 0);
    assert_eq!(answers, [0, 0, 0, 9]);
    assert_eq!((tally.asked, tally.answered), (8, 9));
    assert_eq!(tally.refused, u32::MAX - 1);
}
