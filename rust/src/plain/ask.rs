//! The answerer: one question on an image that was taken apart, and a batch.

use super::{open, Neighbour, Opened};
use crate::Tally;

/// Answers one question: code, value, sort.
pub fn answer(opened: &Opened, kind: u32, a: u32, b: u32) -> [u32; 3] {
    let value = answer_or_refuse(opened, kind, a as usize, b as usize);
    match value {
        Ok((value, sort)) => [0, value as u32, sort],
        Err(code) => [code, 0, 0],
    }
}

/// Value and sort, or one of the codes 31 to 33.
fn answer_or_refuse(opened: &Opened, kind: u32, a: usize, b: usize) -> Result<Neighbour, u32> {
    let l = opened.trits.len();
    let n = opened.operands.len();
    let first_is_in = match kind {
        0 => a < l,
        1 | 2 => a <= 2,
        3..=6 => 1 <= a && a <= n,
        _ => return Err(31),
    };
    if !first_is_in {
        return Err(32);
    }
    // The b-th entry of a list, from 1.
    fn numbered<T: Copy>(list: &[T], b: usize) -> Result<T, u32> {
        if b < 1 || b > list.len() {
            return Err(33);
        }
        Ok(list[b - 1])
    }
    match kind {
        0 | 3 | 5 if b != 0 => Err(33),
        0 => Ok((usize::from(opened.trits[a]), 0)),
        1 if b > l => Err(33),
        1 => Ok((opened.places[a].partition_point(|&place| place < b), 0)),
        2 => Ok((numbered(&opened.places[a], b)?, 0)),
        3 => Ok((opened.operands[a - 1].len(), 0)),
        4 => numbered(&opened.operands[a - 1], b),
        5 => Ok((opened.users[a - 1].len(), 0)),
        _ => numbered(&opened.users[a - 1], b),
    }
}

/// Answers a batch and adds it to the tally: 0, or a refusal (41, 42, 43, 21 to
/// 26), which changes neither.
pub fn batch(image: &[u8], questions: &[u32], answers: &mut [u32], tally: &mut Tally) -> u32 {
    if !questions.len().is_multiple_of(3) {
        return 41;
    }
    if answers.len() < questions.len() {
        return 42;
    }
    let q = (questions.len() / 3) as u64;
    for field in [tally.asked, tally.answered, tally.refused] {
        if u64::from(field) + q > u64::from(u32::MAX) {
            return 43;
        }
    }
    let opened = match open(image) {
        Ok(opened) => opened,
        Err(refusal) => return refusal,
    };
    for (question, place) in questions.chunks(3).zip(answers.chunks_mut(3)) {
        let words = answer(&opened, question[0], question[1], question[2]);
        place.copy_from_slice(&words);
        tally.asked += 1;
        if words[0] == 0 {
            tally.answered += 1;
        } else {
            tally.refused += 1;
        }
    }
    0
}
