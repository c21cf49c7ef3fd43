//! Questions of every kind: all that an image answers, and numbers outside.

use glouds::make::Xorshift;
use glouds::plain::{self, Opened};

/// Numbers outside most lists; with high bits lost some are inside.
const FAR: [u32; 15] = [
    u32::MAX,
    u32::MAX - 1,
    u32::MAX - 2,
    1 << 31,
    (1 << 31) - 1,
    (1 << 31) + 1,
    1 << 24,
    (1 << 16) + 1,
    1 << 16,
    65_535,
    30_001,
    125_537,
    257,
    256,
    255,
];

/// Kinds that there are not.
const UNKNOWN: [u32; 14] = [
    7,
    8,
    9,
    10,
    16,
    255,
    256,
    (1 << 8) + 3,
    (1 << 16) + 4,
    (1 << 24) + 5,
    1 << 31,
    (1 << 31) + 6,
    u32::MAX - 6,
    u32::MAX,
];

/// Kind, a and b.
pub type Question = [u32; 3];

/// A proper image, taken apart.
pub fn open(image: &[u8]) -> Opened {
    plain::open(image).expect("a proper image")
}

/// The last a of a kind on this image; the first is 0 for kinds 0 to 2, else 1.
pub fn last_a(opened: &Opened, kind: u32) -> u32 {
    match kind {
        0 => opened.trits.len() as u32 - 1,
        1 | 2 => 2,
        _ => opened.operands.len() as u32,
    }
}

/// The last b of a kind with this a, 0 if there is none or a is outside.
pub fn last_b(opened: &Opened, kind: u32, a: u32) -> u32 {
    let a = a as usize;
    let count = match kind {
        1 => opened.trits.len(),
        2 => opened.places.get(a).map_or(0, Vec::len),
        4 | 6 if a == 0 => 0,
        4 => opened.operands.get(a - 1).map_or(0, Vec::len),
        6 => opened.users.get(a - 1).map_or(0, Vec::len),
        _ => 0,
    };
    count as u32
}

/// Every question with numbers inside or just outside, and many with numbers
/// far outside.
pub fn every(opened: &Opened) -> Vec<Question> {
    let mut list = Vec::new();
    for kind in 0..7 {
        let last = last_a(opened, kind);
        for a in 0..=last + 2 {
            for b in 0..=last_b(opened, kind, a) + 2 {
                list.push([kind, a, b]);
            }
        }
        for far in FAR {
            list.push([kind, far, 0]);
            list.push([kind, far, 1]);
            for a in [0, 1, last] {
                list.push([kind, a, far]);
                list.push([kind, a, far.wrapping_add(last_b(opened, kind, a))]);
            }
        }
    }
    for kind in UNKNOWN {
        for (a, b) in [(0, 0), (1, 0), (1, 1), (2, 3), (u32::MAX, u32::MAX)] {
            list.push([kind, a, b]);
        }
    }
    list
}

/// A number mostly from `low` to `high`, at times at an end of these, just
/// outside or far outside.
fn number(low: u32, high: u32, rng: &mut Xorshift) -> u32 {
    let inside = if low <= high {
        low + rng.below((high - low + 1) as usize) as u32
    } else {
        low
    };
    match rng.below(24) {
        0 => low.wrapping_sub(1),
        1 => low,
        2 => high,
        3 => high + 1,
        4 => high + 2 + rng.below(9) as u32,
        5 => FAR[rng.below(FAR.len())],
        6 => inside.wrapping_add(1 << (8 * rng.below(4))),
        7 => inside.wrapping_add(1 << 31),
        8 => inside.wrapping_neg(),
        _ => inside,
    }
}

/// A random question, most often one that has an answer.
fn question(opened: &Opened, rng: &mut Xorshift) -> Question {
    let kind = match rng.below(100) {
        0 => UNKNOWN[rng.below(UNKNOWN.len())],
        1 => (rng.bits() as u32).max(7),
        _ => rng.below(7) as u32,
    };
    let a = number(u32::from(kind > 2), last_a(opened, kind), rng);
    let low = u32::from([2, 4, 6].contains(&kind));
    let b = number(low, last_b(opened, kind, a), rng);
    [kind, a, b]
}

/// Random questions.
pub fn questions(opened: &Opened, count: usize, rng: &mut Xorshift) -> Vec<Question> {
    (0..count).map(|_| question(opened, rng)).collect()
}

/// Words of questions for an image that is not there, or damaged.
pub fn any_questions(count: usize, rng: &mut Xorshift) -> Vec<Question> {
    let mut word = |bound| rng.below(bound) as u32;
    (0..count).map(|_| [word(8), word(9), word(4)]).collect()
}
