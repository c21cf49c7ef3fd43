//! A proper image damaged in many ways.

use crate::run::Cases;
use glouds::{make, plain};

impl Cases {
    /// Each byte set to many values.
    pub fn bytes(&mut self, image: &[u8], need: usize) {
        for at in 0..image.len() {
            let old = image[at];
            let near = [
                old.wrapping_sub(1),
                old.wrapping_add(1),
                0,
                1,
                2,
                242,
                243,
                255,
            ];
            let bits = (0..8).map(|bit| old ^ 1 << bit);
            let any = self.rng.bits() as u8;
            for byte in near.into_iter().chain(bits).chain([any]) {
                let mut changed = image.to_vec();
                changed[at] = byte;
                self.whole(&changed, need);
            }
        }
    }

    /// Cut at a length, the rest still following in memory.
    pub fn cut(&mut self, image: &[u8], len: usize, need: usize) {
        assert_eq!(self.damaged(image, len, need), 21);
    }

    /// Bytes added behind.
    pub fn more(&mut self, image: &[u8], need: usize) {
        for more in [&[0][..], &[1], &[255], &[0; 4], &[7; 300], image] {
            assert_eq!(self.whole(&[image, more].concat(), need), 26);
        }
    }

    /// Each section's count changed, and one byte of its contents.
    pub fn sections(&mut self, image: &[u8], need: usize) {
        for (index, pair) in make::starts(image).windows(2).enumerate() {
            let (start, end) = (pair[0], pair[1]);
            let refusal = |other: u32| match index {
                0 => other,
                1 => 24,
                _ => 25,
            };
            for byte in 0..4 {
                let mut changed = image.to_vec();
                changed[start + byte] ^= 1 << self.rng.below(8);
                let given = self.whole(&changed, need);
                assert_eq!(given, refusal(given));
            }
            if start + 4 < end {
                for at in [
                    start + 4,
                    end - 1,
                    start + 4 + self.rng.below(end - start - 4),
                ] {
                    let mut changed = image.to_vec();
                    changed[at] ^= 1 << self.rng.below(8);
                    let given = self.whole(&changed, need);
                    assert!(index < 2 || given == 25);
                }
            }
            for len in [start, start + 1, start + 3, end - 1] {
                self.cut(image, len, need);
            }
        }
    }

    /// Some bytes changed at random, and a run of them moved or cleared.
    pub fn random(&mut self, image: &[u8], need: usize, rounds: usize) {
        for round in 0..rounds {
            let changed = make::changed(image, round % 4, &mut self.rng);
            self.whole(&changed, need);
        }
    }

    /// Two trits exchanged, one changed, an entry of H changed; all else as the
    /// new trits and H give it, so that many are proper images of other graphs.
    pub fn remade(&mut self, image: &[u8], need: usize, rounds: usize) {
        let opened = plain::open(image).expect("a proper image");
        let (l, k) = (opened.trits.len(), opened.shadows.len());
        for round in 0..rounds {
            let (mut trits, mut shadows) = (opened.trits.clone(), opened.shadows.clone());
            match round % 3 {
                0 => {
                    let at = self.rng.below(l);
                    let other = (at + 1 + self.rng.below(9)).min(l - 1);
                    trits.swap(at, other);
                }
                1 => trits[self.rng.below(l)] = self.rng.below(3) as u8,
                _ if k > 0 => {
                    let n = opened.operands.len();
                    shadows[self.rng.below(k)] = 1 + self.rng.below(n);
                }
                _ => {}
            }
            let n = plain::count(&trits, 1);
            if shadows.iter().all(|&shadow| shadow <= n) {
                self.proper_or_not(&make::image(&trits, &shadows), need);
            }
        }
    }
}
