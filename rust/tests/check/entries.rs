//! Counts and single numbers of the sections changed.

use crate::made::{made, Made, ENTRIES, WIDTHS};
use crate::run::{some, Cases};
use glouds::make::{number, put, with};
use glouds::plain::{self, count, places};

impl Cases {
    /// Each count changed: alone, with the contents following suit, and with
    /// nothing behind it.
    pub fn counts(&mut self, image: &Made) {
        for (index, start) in image.starts().into_iter().enumerate() {
            let old = image.sections[index].count as u64;
            let near = [old.wrapping_sub(1), old + 1, 0, old + 256];
            let large = [65_536, 1 << 24, 1 << 31, u64::from(u32::MAX)];
            for new in near.into_iter().chain(large.map(|large| old | large)) {
                let new = new & u64::from(u32::MAX);
                let bytes = with(&image.bytes, start - 4, 4, new);
                let refusals = [self.whole(&bytes), self.part(&bytes, start)];
                if index > 0 && new != old {
                    assert_eq!(refusals, [Made::refusal(index); 2]);
                }
            }
            let entry = ENTRIES[index];
            if entry > 0 {
                let mut longer = image.sections.clone();
                longer[index].count += 1;
                let last = longer[index].contents.len().saturating_sub(entry);
                longer[index].contents.extend_from_within(last..);
                longer[index].contents.resize(last + 2 * entry, 0);
                self.refused(&plain::image(&longer), Made::refusal(index));
                let mut shorter = image.sections.clone();
                shorter[index].count = (old as usize).saturating_sub(1);
                shorter[index].contents.truncate(last);
                if old > 0 {
                    self.refused(&plain::image(&shorter), Made::refusal(index));
                }
            }
        }
        // A word more of marks, with a sample of them.
        let mut wider = image.sections.clone();
        wider[2].contents.extend([0; 8]);
        self.refused(&plain::image(&wider), 25);
        wider[8].count += 1;
        wider[8].contents.extend([0; 2]);
        self.refused(&plain::image(&wider), 25);
    }

    /// Entries of H at and beyond their limits. All else as it was, and all
    /// else as the changed H gives it.
    pub fn shadows(&mut self, image: &Made) {
        let n = count(&image.trits, 1);
        let twos = places(&image.trits, 2);
        // Among them the last that can point ahead.
        let last_one = image.trits.iter().rposition(|&trit| trit == 1);
        let ahead = twos.iter().rposition(|&two| Some(two) < last_one);
        for index in some(twos.len(), &mut self.rng).into_iter().chain(ahead) {
            let seen = count(&image.trits[..twos[index]], 1);
            let old = image.shadows[index];
            for new in [0, 1, old - 1, old + 1, seen, seen + 1, n, n + 1, 65_535] {
                let at = image.starts()[1] + 2 * index;
                let refusal = self.whole(&with(&image.bytes, at, 2, new as u64));
                let within = (1..=seen).contains(&new);
                match refusal {
                    0 => assert_eq!(new, old),
                    24 => assert!(!within),
                    _ => assert!(within && new != old),
                }
                if (1..=n).contains(&new) {
                    let mut shadows = image.shadows.clone();
                    shadows[index] = new;
                    let bytes = made(&image.trits, &shadows).bytes;
                    self.refused(&bytes, if within { 0 } else { 24 });
                }
            }
        }
    }

    /// Every number of sections 2 to 9 changed by one bit and by 1 each way.
    /// The trytes have `every_byte` and `rules`.
    pub fn numbers(&mut self, image: &Made) {
        for (index, start) in image.starts().into_iter().enumerate().skip(1) {
            let width = WIDTHS[index];
            let numbers = image.sections[index].contents.len() / width;
            for entry in some(numbers, &mut self.rng) {
                let at = start + width * entry;
                let old = number(&image.bytes, at, width);
                let bits = (0..8 * width).map(|bit| old ^ 1 << bit);
                let near = [old.wrapping_sub(1), old.wrapping_add(1)];
                for new in bits.chain(near) {
                    let refusal = self.whole(&with(&image.bytes, at, width, new));
                    assert!(refusal == 25 || refusal == 24 && index == 1);
                }
            }
        }
    }

    /// The first and the last number of each section changed, and some others.
    pub fn few_numbers(&mut self, image: &Made) {
        for (index, start) in image.starts().into_iter().enumerate().skip(1) {
            let width = WIDTHS[index];
            let numbers = image.sections[index].contents.len() / width;
            if numbers == 0 {
                continue;
            }
            for entry in [0, numbers - 1, self.rng.below(numbers)] {
                let at = start + width * entry;
                let old = number(&image.bytes, at, width);
                let bit = old ^ 1 << self.rng.below(8 * width);
                for new in [bit, old.wrapping_add(1)] {
                    let refusal = self.whole(&with(&image.bytes, at, width, new));
                    assert!(refusal == 25 || refusal == 24 && index == 1);
                }
                // Exchanged with its neighbour; 1 taken from the neighbour.
                if entry ^ 1 < numbers {
                    let beside = start + width * (entry ^ 1);
                    let other = number(&image.bytes, beside, width);
                    let moved = (old.wrapping_add(1), other.wrapping_sub(1));
                    for (new, left) in [(other, old), moved] {
                        let mut bytes = with(&image.bytes, at, width, new);
                        put(&mut bytes, beside, width, left);
                        self.whole(&bytes);
                    }
                }
            }
        }
    }
}
