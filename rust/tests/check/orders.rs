//! Entries that are wrong together: exchanged, repeated, shifted or made up, and
//! faults in two sections.

use crate::made::{Made, WIDTHS};
use crate::run::{some, Cases};
use glouds::make::{number, put, with};

/// Images with a section's entries shifted by one, either way, and with all of
/// its numbers one more and one less.
fn shifted(image: &Made, index: usize) -> Vec<Vec<u8>> {
    let width = WIDTHS[index];
    let (start, end) = (image.starts()[index], image.end(index));
    if start == end {
        return Vec::new();
    }
    let mut left = image.bytes.clone();
    left[start..end].rotate_left(width);
    let mut right = image.bytes.clone();
    right.copy_within(start..end - width, start + width);
    let mut all = vec![left, right];
    for by in [1, u64::MAX] {
        let mut bytes = image.bytes.clone();
        for at in (start..end).step_by(width) {
            let new = number(&image.bytes, at, width).wrapping_add(by);
            put(&mut bytes, at, width, new);
        }
        all.push(bytes);
    }
    all
}

impl Cases {
    /// Entries exchanged, repeated, shifted and made up in sections 4 to 9.
    pub fn orders(&mut self, image: &Made) {
        for (index, start) in image.starts().into_iter().enumerate().skip(3) {
            let mut all = self.exchanged(image, index);
            all.extend(shifted(image, index));
            let contents = &image.sections[index].contents;
            let end = image.end(index);
            for bytes in all {
                let same = bytes[start..end] == contents[..];
                self.refused(&bytes, if same { 0 } else { 25 });
            }
        }
    }

    /// Images with each number of a section copied to and from, and exchanged
    /// with, the next two and two others of any group; and set to some that may
    /// be places.
    fn exchanged(&mut self, image: &Made, index: usize) -> Vec<Vec<u8>> {
        let width = WIDTHS[index];
        let start = image.starts()[index];
        let numbers = image.sections[index].contents.len() / width;
        let entry_of = |number: usize| start + width * number;
        let mut all = Vec::new();
        for one in some(numbers, &mut self.rng) {
            let any = [self.rng.below(numbers), self.rng.below(numbers)];
            for other in [one + 1, one + 2, any[0], any[1]] {
                if other < numbers {
                    let (at, from) = (entry_of(one), entry_of(other));
                    let old = number(&image.bytes, at, width);
                    let new = number(&image.bytes, from, width);
                    let copied = with(&image.bytes, at, width, new);
                    all.push(with(&copied, from, width, old));
                    all.push(copied);
                    all.push(with(&image.bytes, from, width, old));
                }
            }
            let l = image.trits.len();
            for new in [0, 1, l - 1, l, self.rng.below(l), usize::MAX] {
                all.push(with(&image.bytes, entry_of(one), width, new as u64));
            }
        }
        all
    }

    /// Samples that are wrong one by one but give the right ranks: one less in a
    /// section, one more in each sample of the next that is counted from it.
    pub fn made_up_ranks(&mut self, image: &Made) {
        let starts = image.starts();
        for (upper, ratio) in [(5, 239), (6, 11)] {
            let (wide, narrow) = (WIDTHS[upper], WIDTHS[upper + 1]);
            let pairs = image.sections[upper].count;
            let lower_pairs = image.sections[upper + 1].count;
            for pair in some(pairs, &mut self.rng) {
                for side in 0..2 {
                    let at = starts[upper] + wide * (2 * pair + side);
                    let old = number(&image.bytes, at, wide);
                    if old == 0 {
                        continue;
                    }
                    let mut bytes = with(&image.bytes, at, wide, old - 1);
                    for lower in pair * ratio..lower_pairs.min((pair + 1) * ratio) {
                        let at = starts[upper + 1] + narrow * (2 * lower + side);
                        let new = number(&bytes, at, narrow) + 1;
                        put(&mut bytes, at, narrow, new);
                    }
                    self.refused(&bytes, 25);
                }
            }
        }
    }

    /// A fault in one section and another in a later one; a fault and a cut, or
    /// bytes behind. The first in order is given.
    pub fn two_faults(&mut self, image: &Made) {
        for first in 1..9 {
            let start = image.starts()[first];
            let refusal = Made::refusal(first);
            // A wrong count, or a wrong number: 0 in section 2. Each with the
            // length from which on it is known.
            let low = u64::from(image.bytes[start - 4] ^ 77);
            let mut faults = vec![(start, with(&image.bytes, start - 4, 1, low))];
            let length = image.sections[first].contents.len();
            if length > 0 {
                let at = start + self.rng.below(length);
                let bit = 1 << self.rng.below(8);
                let bytes = match first {
                    1 => with(&image.bytes, start + length - 2, 2, 0),
                    _ => with(&image.bytes, at, 1, u64::from(image.bytes[at] ^ bit)),
                };
                faults.push((start + length, bytes));
            }
            for (known, bytes) in faults {
                for len in some(bytes.len(), &mut self.rng) {
                    let expected = if len < known { 21 } else { refusal };
                    assert_eq!(self.part(&bytes, len), expected);
                }
                self.refused(&[&bytes[..], &[0; 5]].concat(), refusal);
                for second in first + 1..9 {
                    let start = image.starts()[second];
                    let end = image.end(second);
                    for at in [start - 4, start - 1, start.min(end - 1), end - 1] {
                        let other = with(&bytes, at, 1, self.rng.bits());
                        self.refused(&other, refusal);
                        assert_eq!(self.part(&other, end - 1), refusal);
                    }
                }
                // And in section 1.
                let at = 4 + self.rng.below(image.sections[0].contents.len());
                self.refused(&with(&bytes, at, 1, 250), 23);
                self.refused(&with(&bytes, 3, 1, 1), 22);
            }
        }
    }
}
