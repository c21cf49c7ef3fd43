//! The command `glouds` from end to end: files, standard streams, exit status,
//! messages, and what is left behind.

mod asking;
mod files;
mod folder;
mod listing;
mod packing;
mod pipes;
mod refused;
mod using;

use glouds::plain;

fn image(table: &[u16]) -> Vec<u8> {
    plain::pack(table).unwrap().image
}

/// Tables that are refused, by 1 to 6 and 8.
const REFUSED: [(&[u16], u32); 11] = [
    (&[], 1),
    (&[0], 1),
    (&[30_001], 2),
    (&[2, 1, 1, 65_535], 2),
    (&[1, 1, 2], 3),
    (&[1, 0, 1, 2], 4),
    (&[0, 1, 1], 4),
    (&[1, 0, 2, 1, 1], 5),
    (&[0, 0, 7], 6),
    (&[2, 0, 0, 1, 1], 8),
    (&[1, 0, 0], 8),
];
