//! Sections of one image beside those of another.

use crate::made::{image_of, made, Made};
use crate::run::Cases;
use glouds::make;
use glouds::plain::{self, count, places, Section};

impl Cases {
    /// Sections of two images with the same counts, mixed.
    fn mixed(&mut self, one: &Made, other: &Made, times: usize) {
        for _ in 0..times {
            let choice = self.rng.bits() & self.rng.bits();
            let sections: Vec<Section> = (0..9)
                .map(|index| [one, other][(choice >> index & 1) as usize].sections[index].clone())
                .collect();
            self.whole(&plain::image(&sections));
        }
    }

    /// The image beside others of the same trits, and of the same numbers of
    /// roots, nodes and edges.
    pub fn mixtures(&mut self, image: &Made, times: usize) {
        let mut seen = 0;
        let mut shadows = Vec::new();
        for &trit in &image.trits {
            seen += usize::from(trit == 1);
            if trit == 2 {
                shadows.push(1 + self.rng.below(seen));
            }
        }
        self.mixed(image, &made(&image.trits, &shadows), times);
        // Two neighbours exchanged among H, and all turned to the first node.
        if shadows.len() > 1 {
            let at = self.rng.below(shadows.len() - 1);
            shadows.copy_from_slice(&image.shadows);
            shadows.swap(at, at + 1);
            self.mixed(image, &made(&image.trits, &shadows), times);
        }
        shadows.fill(1);
        self.mixed(image, &made(&image.trits, &shadows), times);

        let c = places(&image.trits, 0)[0];
        let n = count(&image.trits, 1);
        if n > 0 {
            let m = image.trits.len() - n - c - 1;
            let other = make::random(n, m, c, &mut self.rng);
            self.mixed(image, &image_of(&other), times);
        }
    }
}
