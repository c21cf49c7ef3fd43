//! Bytes set to anything, cut off or added.

use crate::made::Made;
use crate::run::Cases;

impl Cases {
    /// Each byte set to every value.
    pub fn every_byte(&mut self, image: &Made) {
        for at in 0..image.bytes.len() {
            let mut changed = image.bytes.clone();
            for byte in 0..=255 {
                changed[at] = byte;
                self.whole(&changed);
            }
        }
    }

    /// Cut at every length, the rest still following in memory.
    pub fn cuts(&mut self, image: &Made) {
        for len in 0..image.bytes.len() {
            assert_eq!(self.part(&image.bytes, len), 21);
        }
    }

    /// Cut near each end of a count and of a section.
    pub fn few_cuts(&mut self, image: &Made) {
        for (index, start) in image.starts().into_iter().enumerate() {
            let end = image.end(index);
            for len in [start - 4, start - 1, start, start + 1, end - 1] {
                assert_eq!(self.part(&image.bytes, len.min(end - 1)), 21);
            }
        }
    }

    /// One byte more and several more.
    pub fn more(&mut self, image: &Made) {
        for more in [&[0][..], &[1], &[255], &[0; 4], &[0; 8], &[7; 300]] {
            self.refused(&[&image.bytes, more].concat(), 26);
        }
        let again = [&image.bytes[..], &image.bytes].concat();
        self.refused(&again, 26);
    }

    /// One to four bytes set to anything, sometimes with a cut.
    pub fn random_damage(&mut self, image: &Made, times: usize) {
        let len = image.bytes.len();
        // As often in each section, however long.
        let starts = image.starts();
        for round in 0..times {
            let mut bytes = image.bytes.clone();
            for _ in 0..1 + self.rng.below(4) {
                let index = self.rng.below(9);
                let from = starts[index] - if round % 4 == 0 { 4 } else { 0 };
                let length = image.end(index) - from;
                if length > 0 {
                    bytes[from + self.rng.below(length)] = self.rng.bits() as u8;
                }
            }
            let cut = if round % 5 == 0 {
                self.rng.below(len)
            } else {
                len
            };
            self.part(&bytes, cut);
        }
    }
}
