//! The plain code against every case that document 01 writes out, and against
//! itself over all small graphs.

mod checking;
mod questions;
mod small;
mod written;

use glouds::make;
use glouds::plain::{self, Packed};

/// Packs a table that must be accepted.
fn packed(table: &[u16]) -> Packed {
    plain::pack(table).unwrap()
}

/// The answer to one question about a table's image.
fn asked(table: &[u16], kind: u32, a: u32, b: u32) -> [u32; 3] {
    let opened = plain::open(&packed(table).image).unwrap();
    plain::answer(&opened, kind, a, b)
}

/// A listing as text.
fn listed(table: &[u16]) -> String {
    String::from_utf8(plain::listing(&make::bytes(table))).unwrap()
}
