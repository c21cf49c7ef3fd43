//! One batch asked both ways, with guards around all that is lent.

use crate::lent::{Batch, Memory};
use crate::questions::Question;
use glouds::make::Xorshift;
use glouds::Tally;

/// What a batch gives: its number, and what was lent, as it is afterwards.
pub struct Given {
    pub refusal: u32,
    pub answers: Vec<u32>,
    pub tally: Tally,
}

/// Runs the cases and counts them.
pub struct Cases {
    pub rng: Xorshift,
    pub run: usize,
    pub graphs: usize,
    /// Batches by their number.
    pub outcomes: [usize; 44],
    /// Batches with more than one fault, by the number of the first.
    pub together: [usize; 44],
    /// Questions by kind, 7 for one that is unknown, and by code, less 30.
    pub answers: [[usize; 4]; 8],
    /// Answers by sort.
    pub sorts: [usize; 3],
}

impl Cases {
    pub fn new(seed: u64) -> Self {
        Cases {
            rng: Xorshift::new(seed),
            run: 0,
            graphs: 0,
            outcomes: [0; 44],
            together: [0; 44],
            answers: [[0; 4]; 8],
            sorts: [0; 3],
        }
    }

    /// Asks `words`, of the first `len` of `bytes`, into `room` words of
    /// answers that are junk, and compares the number and all memory, guards
    /// before and after the lent parts included.
    pub fn part(
        &mut self,
        bytes: &[u8],
        len: usize,
        words: &[u32],
        room: usize,
        tally: Tally,
    ) -> Given {
        self.run += 1;
        let batch = Batch {
            bytes,
            len,
            words,
            room,
            tally,
        };
        let guard = 1 + self.run % 8;
        let mut memory = batch.memory(guard, &mut self.rng);

        let mut due = memory.clone();
        let refusal = batch.ask_plain(&mut due);
        self.outcomes[refusal as usize] += 1;
        if refusal == 0 {
            self.ran(words, &memory, &due);
        } else {
            assert!(due.answers == memory.answers && due.tallies[1] == tally);
        }

        let result = batch.ask_library(&mut memory);
        assert_eq!(result, refusal, "{}", batch.shown());
        batch.compare(&memory, &due);
        Given {
            refusal,
            answers: memory.answers[guard..guard + room].to_vec(),
            tally: memory.tallies[1],
        }
    }

    /// Counts the answers of a batch that ran. It must have left the words
    /// past its answers and added itself to the tally.
    fn ran(&mut self, words: &[u32], before: &Memory, after: &Memory) {
        let end = after.guard + words.len();
        let answers = after.answers[after.guard..end].chunks(3);
        let mut answered = 0;
        for (question, answer) in words.chunks(3).zip(answers) {
            let code = (answer[0] as usize).saturating_sub(30);
            self.answers[question[0].min(7) as usize][code] += 1;
            self.sorts[answer[2] as usize] += 1;
            answered += usize::from(code == 0);
        }
        assert!(after.answers[end..] == before.answers[end..]);
        let (old, new) = (before.tallies[1], after.tallies[1]);
        let q = words.len() / 3;
        let more = |field: u32, count: usize| field + count as u32;
        assert_eq!(new.asked, more(old.asked, q));
        assert_eq!(new.answered, more(old.answered, answered));
        assert_eq!(new.refused, more(old.refused, q - answered));
    }

    /// Asks a whole image, with just enough room or more.
    pub fn ask(&mut self, image: &[u8], list: &[Question], tally: Tally) -> Given {
        let words = list.concat();
        let more = [0, 0, 1, 2, 3, self.rng.below(40)][self.run % 6];
        self.part(image, image.len(), &words, words.len() + more, tally)
    }

    /// A tally of small or large numbers, which need not fit one another.
    pub fn tally(&mut self) -> Tally {
        let shift = 4 + self.rng.below(28);
        let mut field = || (self.rng.bits() as u32) >> shift;
        Tally {
            asked: field(),
            answered: field(),
            refused: field(),
        }
    }
}
