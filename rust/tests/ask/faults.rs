//! Refusals of a whole batch: images with damage, full tallies, and several
//! faults at once.

use crate::questions::{any_questions, open, questions, Question};
use crate::run::Cases;
use glouds::{make, plain, Tally};

/// A proper image damaged once for each refusal from 21 to 26 that it can get.
pub fn damaged(image: &[u8]) -> Vec<(Vec<u8>, u32)> {
    let starts = make::starts(image);
    let with = |at: usize, byte: u8| make::with(image, at, 1, u64::from(byte));
    let list = vec![
        (image[..image.len() - 1].to_vec(), 21),
        (with(3, 1), 22),
        (with(4, 243), 23),
        (with(starts[1], !image[starts[1]]), 24),
        (with(starts[2], !image[starts[2]]), 25),
        ([image, &[0]].concat(), 26),
    ];
    for (bytes, refusal) in &list {
        assert_eq!(plain::check(bytes), *refusal);
    }
    list
}

impl Cases {
    /// No questions: the image is checked nevertheless, and no tally is full.
    pub fn none(&mut self, image: &[u8]) -> u32 {
        let full = Tally {
            asked: u32::MAX,
            answered: u32::MAX,
            refused: u32::MAX,
        };
        let refusal = plain::check(image);
        let given = self.ask(image, &[], full);
        assert_eq!((given.refusal, given.tally), (refusal, full));
        let room = self.rng.below(9);
        let tally = self.tally();
        let given = self.part(image, image.len(), &[], room, tally);
        assert_eq!((given.refusal, given.tally), (refusal, tally));
        refusal
    }

    /// Tallies on both sides of the line, also where the field itself would
    /// rise by less than the number of questions.
    fn full(&mut self, image: &[u8], list: &[Question]) {
        let opened = open(image);
        let most = u64::from(u32::MAX);
        let q = list.len() as u64;
        let ok = |&&[kind, a, b]: &&Question| plain::answer(&opened, kind, a, b)[0] == 0;
        let answered = list.iter().filter(ok).count() as u64;
        for (field, rise) in [q, answered, q - answered].into_iter().enumerate() {
            let line = most - q;
            let own = most - rise;
            let near = [line, line + 1, own, own + 1, line - 1, line + 2];
            for value in near.into_iter().chain([most, most - 1]) {
                if value > most {
                    continue;
                }
                let junk = self.tally();
                let others = [
                    [0; 3],
                    [line as u32; 3],
                    [junk.asked, junk.answered, junk.refused],
                ];
                for mut fields in others {
                    fields[field] = value as u32;
                    let [asked, answered, refused] = fields;
                    let tally = Tally {
                        asked,
                        answered,
                        refused,
                    };
                    let due = if value + q > most { 43 } else { 0 };
                    assert_eq!(self.ask(image, list, tally).refusal, due);
                }
            }
        }
    }

    /// Tallies near the line with questions all answered, all refused and both.
    pub fn lines(&mut self, image: &[u8], most: usize) {
        let opened = open(image);
        let ok = |question: &Question| {
            let &[kind, a, b] = question;
            plain::answer(&opened, kind, a, b)[0] == 0
        };
        let (good, bad): (Vec<_>, Vec<_>) = questions(&opened, most, &mut self.rng)
            .into_iter()
            .partition(ok);
        for list in [&good[..], &bad, &[&good[..], &bad].concat()] {
            self.full(image, list);
            self.full(image, &list[..list.len().min(1)]);
        }
        self.full(image, &[]);
    }

    /// One fault, and several at once: the first in order is given.
    pub fn faults(&mut self, image: &[u8]) {
        let mut images = damaged(image);
        images.push((image.to_vec(), 0));
        let opened = open(image);
        for (bytes, wrong) in &images {
            for q in [0, 1, 2, 7] {
                let list = questions(&opened, q, &mut self.rng);
                for extra in 0..3 {
                    let mut words = list.concat();
                    words.extend((0..extra).map(|_| self.rng.below(7) as u32));
                    self.rooms_and_tallies(bytes, *wrong, &words);
                }
            }
        }
    }

    /// Asks an image with the refusal `wrong`, or 0, with room enough and too
    /// little, and with tallies that are full and that are not.
    fn rooms_and_tallies(&mut self, bytes: &[u8], wrong: u32, words: &[u32]) {
        let len = words.len();
        let q = len / 3;
        let fault = |is: bool, number| if is { number } else { 0 };
        for short in [0, 1, 2, 3, len] {
            if short > len {
                continue;
            }
            for full in 0..5 {
                let tally = self.full_tally(full, q);
                let first = self.first([
                    fault(!len.is_multiple_of(3), 41),
                    fault(short > 0, 42),
                    fault(full > 0 && q > 0, 43),
                    wrong,
                ]);
                let more = if short == 0 { self.rng.below(4) } else { 0 };
                let room = len - short + more;
                let given = self.part(bytes, bytes.len(), words, room, tally);
                assert_eq!(given.refusal, first);
            }
        }
    }

    /// A tally that q questions would take over the line: in no field for 0,
    /// in one for 1 to 3, in all for 4.
    fn full_tally(&mut self, full: usize, q: usize) -> Tally {
        let mut tally = self.tally();
        let over = u32::MAX - self.rng.below(q.max(1)) as u32;
        if full == 1 || full == 4 {
            tally.asked = over;
        }
        if full == 2 || full == 4 {
            tally.answered = over;
        }
        if full == 3 || full == 4 {
            tally.refused = over;
        }
        tally
    }

    /// The first of the faults that are there, 0 if there is none. Counts it
    /// if there are more.
    fn first(&mut self, faults: [u32; 4]) -> u32 {
        let mut numbers = faults.into_iter().filter(|&number| number > 0);
        let first = numbers.next().unwrap_or(0);
        if numbers.next().is_some() {
            self.together[first as usize] += 1;
        }
        first
    }

    /// An image that may be refused, asked a few questions.
    pub fn maybe(&mut self, bytes: &[u8], len: usize) -> u32 {
        let count = 1 + self.rng.below(6);
        let words = match plain::open(&bytes[..len]) {
            Ok(opened) => questions(&opened, count, &mut self.rng),
            Err(_) => any_questions(count, &mut self.rng),
        }
        .concat();
        let tally = self.tally();
        let room = words.len() + self.rng.below(5);
        self.part(bytes, len, &words, room, tally).refusal
    }

    /// Cuts, bytes added, counts and contents changed in each section, and
    /// changes at random.
    pub fn damages(&mut self, image: &[u8], rounds: usize) {
        for (index, pair) in make::starts(image).windows(2).enumerate() {
            let (start, end) = (pair[0], pair[1]);
            for len in [start, start + 3, end - 1] {
                assert_eq!(self.maybe(image, len), 21);
            }
            let inside = start + self.rng.below(end - start);
            for at in [start, start + 1, start + 3, end - 1, inside] {
                let mut changed = image.to_vec();
                changed[at] ^= 1 << self.rng.below(8);
                let given = self.maybe(&changed, changed.len());
                assert!(index < 2 || given == 25);
            }
        }
        for more in [&[0][..], &[255], &[7; 300], image] {
            let longer = [image, more].concat();
            assert_eq!(self.maybe(&longer, longer.len()), 26);
        }
        for round in 0..rounds {
            let changed = make::changed(image, round % 3, &mut self.rng);
            self.maybe(&changed, changed.len());
        }
    }
}
