//! Safe wrappers over the C functions of libglouds.a, which packs directed
//! graphs in the GLOUDS form. Tables, images, questions and refusal numbers are
//! those of document 01. `owned` has the same functions with vectors.
//!
//! Each function is a feature, off until the library has it. `cargo test`
//! tests the independent side, `glouds::plain`, on document 01's cases; with
//! `--features pack,check,unpack,ask` and `GLOUDS_LIB_DIR=folder` it also tests
//! the libglouds.a in that folder against it, the command `glouds` and the C
//! header. `cargo run --release` with these features and `--bin bench` or
//! `--bin memory` measures the library.

pub mod make;
pub mod owned;
pub mod plain;
pub mod refusals;

/// The caller's own record of questions, lent to each batch.
#[repr(C)]
#[derive(Clone, Copy, Debug, Default, PartialEq, Eq)]
pub struct Tally {
    /// Questions of all batches that ran.
    pub asked: u32,
    /// Those with code 0.
    pub answered: u32,
    /// The others.
    pub refused: u32,
}

#[cfg(any(
    feature = "pack",
    feature = "check",
    feature = "unpack",
    feature = "ask"
))]
mod c {
    extern "C" {
        #[cfg(feature = "pack")]
        pub fn glouds_pack(
            table: *const u16,
            table_len: usize,
            order: *mut u16,
            order_len: usize,
            work: *mut u32,
            work_len: usize,
            image: *mut u8,
            image_len: usize,
        ) -> u64;

        #[cfg(feature = "check")]
        pub fn glouds_check(image: *const u8, image_len: usize) -> u32;

        #[cfg(feature = "unpack")]
        pub fn glouds_unpack(
            image: *const u8,
            image_len: usize,
            table: *mut u16,
            table_len: usize,
        ) -> u64;

        #[cfg(feature = "ask")]
        pub fn glouds_ask(
            image: *const u8,
            image_len: usize,
            questions: *const u32,
            questions_len: usize,
            answers: *mut u32,
            answers_len: usize,
            tally: *mut crate::Tally,
        ) -> u32;
    }
}

/// Takes refusal * 2^32 + value apart.
#[cfg(any(feature = "pack", feature = "unpack"))]
fn outcome(word: u64) -> Result<usize, u32> {
    let refusal = (word >> 32) as u32;
    let value = word as u32;
    if refusal == 0 {
        Ok(value as usize)
    } else {
        assert_eq!(value, 0, "refusal {refusal} came with a value");
        Err(refusal)
    }
}

/// Packs `table`: writes the order list and the image and gives the image's
/// length in bytes, or a refusal from 1 to 9. `work` needs 3n words.
#[cfg(feature = "pack")]
pub fn pack(
    table: &[u16],
    order: &mut [u16],
    work: &mut [u32],
    image: &mut [u8],
) -> Result<usize, u32> {
    // SAFETY: each pointer is good for its length, and only the three that are
    // borrowed mutably, and so apart from all others, are written through.
    outcome(unsafe {
        c::glouds_pack(
            table.as_ptr(),
            table.len(),
            order.as_mut_ptr(),
            order.len(),
            work.as_mut_ptr(),
            work.len(),
            image.as_mut_ptr(),
            image.len(),
        )
    })
}

/// Gives 0 for a proper image, else a refusal from 21 to 26.
#[cfg(feature = "check")]
pub fn check(image: &[u8]) -> u32 {
    // SAFETY: the pointer is good for its length and only read through.
    unsafe { c::glouds_check(image.as_ptr(), image.len()) }
}

/// Unpacks `image`: writes its table in level order and gives the table's
/// length in words, or a refusal from 21 to 26 or 51.
#[cfg(feature = "unpack")]
pub fn unpack(image: &[u8], table: &mut [u16]) -> Result<usize, u32> {
    // SAFETY: as in `pack`; only `table` is written through.
    outcome(unsafe {
        c::glouds_unpack(image.as_ptr(), image.len(), table.as_mut_ptr(), table.len())
    })
}

/// Answers a batch of questions, three words each, and adds it to the tally.
/// Gives 0 if the batch ran, else a refusal from 21 to 26 or 41 to 43.
#[cfg(feature = "ask")]
pub fn ask(image: &[u8], questions: &[u32], answers: &mut [u32], tally: &mut Tally) -> u32 {
    // SAFETY: as in `pack`; only `answers` and `tally` are written through.
    unsafe {
        c::glouds_ask(
            image.as_ptr(),
            image.len(),
            questions.as_ptr(),
            questions.len(),
            answers.as_mut_ptr(),
            answers.len(),
            tally,
        )
    }
}
