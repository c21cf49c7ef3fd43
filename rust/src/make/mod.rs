//! Tables, graphs, images and lent memory for the tests and the benchmark, from
//! a deterministic generator.

mod graphs;
mod images;
mod lent;
mod series;
mod tables;

pub use graphs::*;
pub use images::*;
pub use lent::*;
pub use series::*;
pub use tables::*;

/// A xorshift generator: the same seed gives the same numbers everywhere.
pub struct Xorshift(u64);

impl Xorshift {
    /// A generator with a seed other than 0.
    pub fn new(seed: u64) -> Self {
        assert_ne!(seed, 0);
        Xorshift(seed)
    }

    /// The next 64 bits.
    pub fn bits(&mut self) -> u64 {
        self.0 ^= self.0 << 13;
        self.0 ^= self.0 >> 7;
        self.0 ^= self.0 << 17;
        self.0.wrapping_mul(0x2545_f491_4f6c_dd1d)
    }

    /// A number below `bound`, which is not 0.
    pub fn below(&mut self, bound: usize) -> usize {
        (((self.bits() >> 32) * bound as u64) >> 32) as usize
    }

    /// Puts a list in a random order.
    pub fn shuffle<T>(&mut self, list: &mut [T]) {
        for i in (1..list.len()).rev() {
            list.swap(i, self.below(i + 1));
        }
    }

    /// A random renumbering: the new number of node i at index i - 1.
    pub fn renumbering(&mut self, n: usize) -> Vec<usize> {
        let mut new: Vec<usize> = (1..=n).collect();
        self.shuffle(&mut new);
        new
    }
}
