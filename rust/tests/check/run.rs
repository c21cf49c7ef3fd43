//! One image checked both ways, with guards around it.

use glouds::make::{self, Xorshift};
use glouds::plain;

/// Runs the cases and counts them.
pub struct Cases {
    pub rng: Xorshift,
    pub run: usize,
    pub outcomes: [usize; 27],
}

/// All of a few, or else the first, the last and some others.
pub fn some(count: usize, rng: &mut Xorshift) -> Vec<usize> {
    if count <= 200 {
        return (0..count).collect();
    }
    let mut list = vec![0, count - 1];
    list.extend((0..2).map(|_| rng.below(count)));
    list
}

impl Cases {
    pub fn new(seed: u64) -> Self {
        Cases {
            rng: Xorshift::new(seed),
            run: 0,
            outcomes: [0; 27],
        }
    }

    /// Checks the first `len` of `bytes` both ways and compares the results;
    /// `bytes` and the guards around them must stay as they are.
    pub fn part(&mut self, bytes: &[u8], len: usize) -> u32 {
        let expected = plain::check(&bytes[..len]);
        self.run += 1;
        self.outcomes[expected as usize] += 1;

        let guard = 1 + self.run % 8;
        let before = make::guarded(bytes, guard, &mut self.rng);
        let memory = before.clone();
        let result = glouds::check(&memory[guard..guard + len]);
        let case = || make::shown(bytes, len);
        assert_eq!(result, expected, "{}", case());
        // A shared slice: black_box, or the compiler may take it as unchanged.
        assert!(
            std::hint::black_box(&memory) == &before,
            "bytes changed: {}",
            case()
        );
        expected
    }

    /// A whole image.
    pub fn whole(&mut self, bytes: &[u8]) -> u32 {
        self.part(bytes, bytes.len())
    }

    /// A whole image with a refusal that the rules name.
    pub fn refused(&mut self, bytes: &[u8], refusal: u32) {
        assert_eq!(self.whole(bytes), refusal);
    }
}
