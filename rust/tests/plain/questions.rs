//! Questions, batches and listings, and their refusals.

use crate::{asked, listed, packed};
use glouds::make::DRAWN;
use glouds::{plain, Tally};

#[test]
fn questions_and_their_refusals() {
    for (question, answer) in [
        ([0, 20, 0], [0, 0, 0]),
        ([0, 7, 0], [0, 2, 0]),
        ([0, 21, 0], [32, 0, 0]),
        ([0, 21, 1], [32, 0, 0]),
        ([0, 20, 1], [33, 0, 0]),
        ([1, 3, 22], [32, 0, 0]),
        ([1, 2, 0], [0, 0, 0]),
        ([1, 2, 21], [0, 4, 0]),
        ([2, 3, 0], [32, 0, 0]),
        ([2, 2, 0], [33, 0, 0]),
        ([2, 2, 4], [0, 19, 0]),
        ([2, 2, 5], [33, 0, 0]),
        ([2, 0, 9], [0, 20, 0]),
        ([3, 0, 0], [32, 0, 0]),
        ([3, 9, 0], [32, 0, 0]),
        ([3, 8, 1], [33, 0, 0]),
        ([3, 8, 0], [0, 1, 0]),
        ([3, 7, 0], [0, 0, 0]),
        ([4, 3, 1], [0, 4, 2]),
        ([4, 3, 2], [0, 5, 1]),
        ([4, 3, 3], [33, 0, 0]),
        ([4, 3, 0], [33, 0, 0]),
        ([4, 9, 0], [32, 0, 0]),
        ([5, 1, 0], [0, 0, 0]),
        ([5, 1, 1], [33, 0, 0]),
        ([6, 1, 1], [33, 0, 0]),
        ([6, 4, 1], [0, 2, 1]),
        ([6, 4, 2], [0, 3, 2]),
        ([6, 4, 0], [33, 0, 0]),
        ([7, 0, 0], [31, 0, 0]),
        ([u32::MAX, 9, 9], [31, 0, 0]),
        ([4, 3, u32::MAX], [33, 0, 0]),
        ([2, u32::MAX, 1], [32, 0, 0]),
    ] {
        let [kind, a, b] = question;
        assert_eq!(asked(&DRAWN, kind, a, b), answer, "{question:?}");
    }
}

/// A tally of these three numbers.
fn tally_of(asked: u32, answered: u32, refused: u32) -> Tally {
    Tally {
        asked,
        answered,
        refused,
    }
}

#[test]
fn batches_and_their_refusals() {
    let image = packed(&DRAWN).image;
    let questions = [1, 1, 11, 7, 0, 0, 6, 7, 3];
    let mut answers = [9; 11];
    let mut tally = Tally::default();
    assert_eq!(
        plain::batch(&image, &questions, &mut answers, &mut tally),
        0
    );
    assert_eq!(answers, [0, 6, 0, 31, 0, 0, 0, 8, 2, 9, 9]);
    assert_eq!(tally, tally_of(3, 2, 1));
    refused_batches(&image, &questions);
    let mut tally = tally_of(u32::MAX, u32::MAX, 0);
    assert_eq!(plain::batch(&image, &[], &mut [], &mut tally), 0);
    assert_eq!(tally, tally_of(u32::MAX, u32::MAX, 0));
}

/// Batches with one fault or several: the first in order is given, and answers
/// and tally stay.
fn refused_batches(image: &[u8], questions: &[u32; 9]) {
    let bad = &image[1..];
    let near = u32::MAX - 3;
    for (image, questions, room, start, refusal) in [
        (bad, &questions[..8], 0, tally_of(u32::MAX, 0, 0), 41),
        (bad, &questions[..9], 8, tally_of(u32::MAX, 0, 0), 42),
        (bad, &questions[..9], 9, tally_of(near + 1, 0, 0), 43),
        (bad, &questions[..9], 9, tally_of(0, near + 1, 0), 43),
        (bad, &questions[..9], 9, tally_of(0, 0, near + 1), 43),
        (bad, &questions[..9], 9, tally_of(near, near, near), 22),
        (bad, &questions[..0], 0, tally_of(u32::MAX, 5, u32::MAX), 22),
        (&image[..50], &questions[..9], 9, tally_of(0, 0, 0), 21),
    ] {
        let mut answers = [7; 11];
        let mut tally = start;
        assert_eq!(
            plain::batch(image, questions, &mut answers[..room], &mut tally),
            refusal
        );
        assert_eq!((answers, tally), ([7; 11], start));
    }
}

#[test]
fn listing_refusals() {
    assert_eq!(plain::listing(&[]), b"refused 1\n");
    assert_eq!(plain::listing(&[0]), b"refused 61\n");
    assert_eq!(plain::listing(&[0; 8_002]), b"refused 61\n");
    assert_eq!(plain::listing(&[0; 8_000]), b"refused 6\n");
    assert_eq!(listed(&[2, 0, 0, 1, 1]), "refused 8\n");
    assert_eq!(
        listed(&[0, 0]),
        "nodes 0 edges 0 roots 0 trits 1 shadows 0 bytes 55\n"
    );
    assert!(listed(&[1, 1, 1, 1, 1]).ends_with("\n1: 1* | 1*\n"));
}
