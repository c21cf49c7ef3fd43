//! Trits that break a rule of section 1, and trits changed at random.

use crate::made::{inserted, made, Made};
use crate::run::{some, Cases};
use glouds::make::{with, Xorshift};
use glouds::plain::{count, places, MOST_TRITS};

/// Trits that each break one rule of section 1, and shadows for them. The
/// image must have a node.
fn broken(image: &Made, rng: &mut Xorshift) -> Vec<(Vec<u8>, Vec<usize>)> {
    let (trits, shadows) = (&image.trits, &image.shadows);
    let (zeros, ones) = (places(trits, 0), places(trits, 1));
    let (l, n) = (trits.len(), ones.len());
    let mut broken = Vec::new();
    // A 2 among the roots: at the front, in the middle, at the end.
    for at in [0, zeros[0] / 2, zeros[0]] {
        broken.push((inserted(trits, at, 2), inserted(shadows, 0, 1)));
    }
    // The last trit a 2.
    for twos in 1..4 {
        let longer = [&trits[..], &vec![2; twos]].concat();
        broken.push((longer, [&shadows[..], &vec![1; twos]].concat()));
    }
    // A zero or a one too many or too few, at both ends.
    for (at, trit) in [(l, 0), (0, 1), (l, 1), (l - 1, 1), (l - 1, 0)] {
        broken.push((inserted(trits, at, trit), shadows.clone()));
    }
    let nodes_left = shadows.iter().map(|&shadow| shadow.min(n - 1));
    broken.push((trits[1..].to_vec(), nodes_left.collect()));
    broken.push((trits[..l - 1].to_vec(), shadows.clone()));
    // A zero with one 1 too few before it: the others come just after it.
    for index in some(n, rng) {
        let mut moved = trits.clone();
        moved[ones[index]..=zeros[index]].sort_by_key(|&trit| trit == 1);
        broken.push((moved, shadows.clone()));
    }
    broken
}

impl Cases {
    /// Trits and trytes that break one rule of section 1, all else as the trits
    /// give it.
    pub fn rules(&mut self, image: &Made) {
        if count(&image.trits, 1) == 0 {
            return;
        }
        for (trits, shadows) in broken(image, &mut self.rng) {
            if count(&trits, 1) > 0 && trits.len() <= MOST_TRITS {
                let broken = made(&trits, &shadows);
                self.refused(&broken.bytes, 23);
                let end = broken.end(0);
                assert_eq!(self.part(&broken.bytes, end), 23);
                assert_eq!(self.part(&broken.bytes, end - 1), 21);
            }
        }
        self.broken_trytes(image);
    }

    /// Padding, and bytes that are no trytes, some of them the same trits.
    fn broken_trytes(&mut self, image: &Made) {
        let l = image.trits.len();
        let end = image.end(0);
        for place in l..l.next_multiple_of(5) {
            for trit in 1..3 {
                let more = trit * 3u64.pow(place as u32 % 5);
                let last = u64::from(image.bytes[end - 1]) + more;
                self.refused(&with(&image.bytes, end - 1, 1, last), 23);
            }
        }
        for at in some(end - 4, &mut self.rng) {
            let old = image.bytes[4 + at];
            let same = if old <= 12 { 243 + u64::from(old) } else { 243 };
            for byte in [same, 243, 255] {
                self.refused(&with(&image.bytes, 4 + at, 1, byte), 23);
            }
        }
    }

    /// Trits put in, taken out, changed and exchanged at random places, with
    /// shadows that may point ahead.
    pub fn changed_trits(&mut self, image: &Made, times: usize) {
        for round in 0..times {
            let mut trits = image.trits.clone();
            let l = trits.len();
            let rng = &mut self.rng;
            for _ in 0..1 + rng.below(2) {
                let (at, to) = (rng.below(l), rng.below(l));
                match rng.below(4) {
                    0 => trits[at] = rng.below(3) as u8,
                    1 => trits.swap(at, (at + 1) % l),
                    2 => trits.swap(at, to),
                    _ => {
                        let trit = trits.remove(at);
                        trits.insert(to, trit);
                    }
                }
            }
            let n = count(&trits, 1);
            let mut seen = 0;
            let mut shadows = Vec::new();
            for &trit in &trits {
                seen += usize::from(trit == 1);
                if trit == 2 && n > 0 {
                    let most = if round % 3 == 0 { n } else { seen.max(1) };
                    shadows.push(1 + rng.below(most));
                }
            }
            self.whole(&made(&trits, &shadows).bytes);
        }
    }
}
