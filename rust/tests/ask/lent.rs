//! What a batch is lent, with guards around each part.

use glouds::make::{self, Xorshift};
use glouds::{plain, Tally};
use std::hint::black_box;

/// A batch: `words` asked of the first `len` of `bytes`, into `room` words of
/// answers.
pub struct Batch<'a> {
    pub bytes: &'a [u8],
    pub len: usize,
    pub words: &'a [u32],
    pub room: usize,
    pub tally: Tally,
}

/// All memory of a batch. Each part but the tally has `guard` numbers of junk
/// before it and after it, the tally has one tally of junk.
#[derive(Clone)]
pub struct Memory {
    pub guard: usize,
    pub bytes: Vec<u8>,
    pub words: Vec<u32>,
    pub answers: Vec<u32>,
    pub tallies: [Tally; 3],
}

impl Batch<'_> {
    /// Memory before the batch is asked. The answers are junk too.
    pub fn memory(&self, guard: usize, rng: &mut Xorshift) -> Memory {
        let bytes = make::guarded(self.bytes, guard, rng);
        // Small words, as of more questions, or any.
        let small = rng.below(2) == 0;
        let mut ends = |_| rng.bits() as u32 >> if small { 29 } else { 0 };
        let front: Vec<u32> = (0..guard).map(&mut ends).collect();
        let back: Vec<u32> = (0..guard).map(&mut ends).collect();
        let words = [&front, self.words, &back].concat();
        let answers = make::filling(self.room + 2 * guard, rng)
            .map(|word| word as u32)
            .collect();
        let mut junk = || Tally {
            asked: rng.bits() as u32,
            answered: rng.bits() as u32,
            refused: rng.bits() as u32,
        };
        let tallies = [junk(), self.tally, junk()];
        Memory {
            guard,
            bytes,
            words,
            answers,
            tallies,
        }
    }

    /// Asks the plain answerer, which writes into the answers and the tally.
    pub fn ask_plain(&self, memory: &mut Memory) -> u32 {
        let guard = memory.guard;
        plain::batch(
            &self.bytes[..self.len],
            self.words,
            &mut memory.answers[guard..guard + self.room],
            &mut memory.tallies[1],
        )
    }

    /// Asks the library, which is lent the parts between the guards.
    pub fn ask_library(&self, memory: &mut Memory) -> u32 {
        let guard = memory.guard;
        glouds::ask(
            &memory.bytes[guard..guard + self.len],
            &memory.words[guard..guard + self.words.len()],
            &mut memory.answers[guard..guard + self.room],
            &mut memory.tallies[1],
        )
    }

    /// The batch for a message.
    pub fn shown(&self) -> String {
        let (len, room, tally) = (self.words.len(), self.room, self.tally);
        let first = &self.words[..len.min(30)];
        let image = make::shown(self.bytes, self.len);
        format!("{len} words {first:?}, room {room}, {tally:?}, {image}")
    }

    /// Holds all memory to what is due, guards included.
    pub fn compare(&self, is: &Memory, due: &Memory) {
        if is.answers != due.answers {
            self.first_difference(is, due);
        }
        assert_eq!(is.tallies, due.tallies, "{}", self.shown());
        // Shared slices: black_box, or the compiler may take them as unchanged.
        assert!(
            black_box(&is.bytes) == &due.bytes,
            "image changed: {}",
            self.shown()
        );
        assert!(
            black_box(&is.words) == &due.words,
            "questions changed: {}",
            self.shown()
        );
    }

    /// Stops with the first answer that is not the one due, and its question.
    fn first_difference(&self, is: &Memory, due: &Memory) -> ! {
        let guard = is.guard;
        let other = |at: &usize| is.answers[*at] != due.answers[*at];
        let at = (0..is.answers.len()).find(other).expect("a difference");
        let from = at.saturating_sub(guard) / 3 * 3;
        let part = |list: &[u32]| list[from + guard..].iter().copied().take(3).collect();
        let (is, due): (Vec<u32>, Vec<u32>) = (part(&is.answers), part(&due.answers));
        panic!(
            "answers at word {at} less {guard}: {:?} gives {is:?}, not {due:?}: {}",
            self.words.get(from..from + 3),
            self.shown()
        );
    }
}
