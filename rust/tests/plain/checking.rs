//! The checker's refusals in their order, and the limits of an image.

use crate::packed;
use glouds::make::{self, Xorshift, DRAWN};
use glouds::plain;

#[test]
fn checker_refusals_in_order() {
    let drawn = packed(&DRAWN).image;
    for end in 0..drawn.len() {
        assert_eq!(plain::check(&drawn[..end]), 21, "cut at {end}");
    }
    let changed = |at: usize, byte: u8| make::with(&drawn, at, 1, u64::from(byte));
    let flipped = |at: usize| changed(at, drawn[at] ^ 255);
    let mut longer = drawn.clone();
    longer.push(0);
    assert_eq!(plain::check(&longer), 26);
    assert_eq!(plain::check(&[0, 0, 0, 0]), 23);
    assert_eq!(plain::check(&[0x61, 0xea, 1, 0]), 22); // L = 125,537
    assert_eq!(plain::check(&[0x60, 0xea, 1, 0]), 21);
    assert_eq!(plain::check(&changed(4, 243)), 23);
    assert_eq!(plain::check(&changed(8, 3)), 23); // a trit of the padding
    assert_eq!(plain::check(&changed(4, 38)), 23); // 2 before the first zero

    // Wrong counts come before missing contents.
    let starts = section_starts(&drawn);
    for (index, &start) in starts.iter().enumerate().skip(1) {
        let refusal = if index == 1 { 24 } else { 25 };
        let image = changed(start, drawn[start] + 1);
        assert_eq!(plain::check(&image[..start + 4]), refusal, "{index}");
        assert_eq!(plain::check(&image[..start + 3]), 21, "{index}");
        let end = *starts.get(index + 1).unwrap_or(&drawn.len());
        for at in start + 4..end {
            let image = flipped(at);
            assert_eq!(plain::check(&image), refusal, "byte {at}");
            assert_eq!(plain::check(&image[..end]), refusal, "byte {at}");
            assert_eq!(plain::check(&image[..end - 1]), 21, "byte {at}");
        }
    }
}

/// Where each section of an image begins, read from its own counts.
fn section_starts(image: &[u8]) -> Vec<usize> {
    let mut at = 0;
    (1..=9)
        .map(|section| {
            let start = at;
            let count = u32::from_le_bytes(image[at..at + 4].try_into().unwrap()) as usize;
            at += 4;
            at += match section {
                1 => count.div_ceil(5),
                3 => count.div_ceil(64) * 8,
                2 | 8 | 9 => count * 2,
                4 | 5 | 7 => count * 4,
                _ => count * 8,
            };
            start
        })
        .collect()
}

#[test]
fn limits_of_an_image() {
    // n and m just within and just above, by hand: section 1 alone decides.
    let first_section = |trits: &[u8]| {
        let sections = plain::sections(trits, &[]);
        plain::check(&plain::image(&sections[..1]))
    };
    let roots = |n: usize| [vec![1; n], vec![0; n + 1]].concat();
    assert_eq!(first_section(&roots(30_000)), 21);
    assert_eq!(first_section(&roots(30_001)), 22);
    let loops = |m: usize| [vec![1, 0], vec![2; m], vec![0]].concat();
    assert_eq!(first_section(&loops(65_535)), 21);
    assert_eq!(first_section(&loops(65_536)), 22);
    // 23 comes before 22 for n and m.
    let mut wrong = roots(30_001);
    wrong.swap(0, 30_001);
    assert_eq!(first_section(&wrong), 23);
    let largest = make::random(30_000, 65_535, 30_000, &mut Xorshift::new(1));
    let packed = plain::pack_graph(&largest).unwrap();
    assert_eq!(packed.trits.len(), plain::MOST_TRITS);
    assert_eq!(plain::check(&packed.image), 0);
}
