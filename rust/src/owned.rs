//! The library's functions with buffers of their own, large enough for every
//! accepted input: 7, 9, 42 and 51 do not occur.

#[cfg(feature = "ask")]
use crate::Tally;

/// The most words of a table: 2 + n + m + c.
pub const MOST_TABLE_WORDS: usize = 2 + 30_000 + 65_535 + 30_000;

/// The most bytes of an image: 30,000 roots, all marked, and 65,535 edges.
pub const MOST_IMAGE_BYTES: usize = 554_936;

/// Bytes that are room enough for the image of a table of so many words.
pub fn image_room(table_words: usize) -> usize {
    56 + 7 * table_words
}

/// Packs a table: the order list and the image, or a refusal (1 to 6, 8).
#[cfg(feature = "pack")]
pub fn pack(table: &[u16]) -> Result<(Vec<u16>, Vec<u8>), u32> {
    let n = table.first().map_or(0, |&n| usize::from(n));
    let mut order = vec![0; n];
    let mut work = vec![0; 3 * n];
    let mut image = vec![0; image_room(table.len())];
    let length = crate::pack(table, &mut order, &mut work, &mut image)?;
    image.truncate(length);
    Ok((order, image))
}

/// Unpacks an image: its table in level order, or a refusal (21 to 26).
#[cfg(feature = "unpack")]
pub fn unpack(image: &[u8]) -> Result<Vec<u16>, u32> {
    let mut table = vec![0; MOST_TABLE_WORDS];
    let length = crate::unpack(image, &mut table)?;
    table.truncate(length);
    Ok(table)
}

/// Answers a batch of questions, or gives a refusal (41, 43, 21 to 26).
#[cfg(feature = "ask")]
pub fn ask(image: &[u8], questions: &[u32], tally: &mut Tally) -> Result<Vec<u32>, u32> {
    let mut answers = vec![0; questions.len()];
    match crate::ask(image, questions, &mut answers, tally) {
        0 => Ok(answers),
        refusal => Err(refusal),
    }
}
