//! Images from trits, the numbers in their bytes, and bytes that are mostly no
//! images.

use super::{random, Xorshift};
use crate::plain;

/// The image that trits and shadows give, proper or not.
pub fn image(trits: &[u8], shadows: &[usize]) -> Vec<u8> {
    plain::image(&plain::sections(trits, shadows))
}

/// Every run of `l` trits.
pub fn every_trits(l: usize) -> impl Iterator<Item = Vec<u8>> {
    (0..3usize.pow(l as u32)).map(move |code| {
        (0..l)
            .map(|place| (code / 3usize.pow(place as u32) % 3) as u8)
            .collect()
    })
}

/// A shadow for each 2, chosen with n at hand; none if there is no node.
pub fn shadows(trits: &[u8], mut choose: impl FnMut(usize) -> usize) -> Vec<usize> {
    let n = plain::count(trits, 1);
    let k = if n > 0 { plain::count(trits, 2) } else { 0 };
    (0..k).map(|_| choose(n)).collect()
}

/// Where each section's count begins in a proper image, and the image's end.
pub fn starts(image: &[u8]) -> Vec<usize> {
    let opened = plain::open(image).expect("a proper image");
    let mut list = vec![0];
    for section in plain::sections(&opened.trits, &opened.shadows) {
        list.push(list[list.len() - 1] + 4 + section.contents.len());
    }
    list
}

/// The number in the `width` bytes at `at`.
pub fn number(bytes: &[u8], at: usize, width: usize) -> u64 {
    let mut eight = [0; 8];
    eight[..width].copy_from_slice(&bytes[at..at + width]);
    u64::from_le_bytes(eight)
}

/// Puts a number in the `width` bytes at `at`.
pub fn put(bytes: &mut [u8], at: usize, width: usize, number: u64) {
    bytes[at..at + width].copy_from_slice(&number.to_le_bytes()[..width]);
}

/// `bytes` with a number in the `width` bytes at `at`.
pub fn with(bytes: &[u8], at: usize, width: usize, number: u64) -> Vec<u8> {
    let mut changed = bytes.to_vec();
    put(&mut changed, at, width, number);
    changed
}

/// An image changed at random in one of four ways: a byte set, a run of bytes
/// moved, a run cleared, or a bit changed here and 1 added there.
pub fn changed(image: &[u8], way: usize, rng: &mut Xorshift) -> Vec<u8> {
    let mut changed = image.to_vec();
    let (at, to) = (rng.below(image.len()), rng.below(image.len()));
    let run = (1 + rng.below(9)).min(image.len() - at.max(to));
    match way {
        0 => changed[at] = rng.bits() as u8,
        1 => changed.copy_within(at..at + run, to),
        2 => changed[at..at + run].fill(0),
        _ => {
            changed[at] ^= 1 << rng.below(8);
            changed[to] = changed[to].wrapping_add(1);
        }
    }
    changed
}

/// Random bytes, by turns alone, after a small count, and after proper sections.
pub fn random_bytes(round: usize, rng: &mut Xorshift) -> Vec<u8> {
    let len = 4 + rng.below(120);
    let mut bytes: Vec<u8> = (0..len).map(|_| rng.bits() as u8).collect();
    match round % 3 {
        0 => {}
        1 => {
            bytes.splice(..4, [rng.below(60) as u8, 0, 0, 0]);
        }
        _ => {
            let n = 1 + rng.below(5);
            let m = n + rng.below(5);
            let graph = random(n, m, 1 + rng.below(n), rng);
            let image = plain::pack_graph(&graph).expect("an accepted graph").image;
            let kept = starts(&image)[1 + rng.below(8)];
            bytes.splice(..0, image[..kept].iter().copied());
        }
    }
    bytes
}
