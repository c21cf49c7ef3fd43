//! The independent oracle: packer, image checker, unpacker, batch answerer and
//! listing, written from document 01 alone with growable lists. It shares
//! nothing with libglouds.a and is meant to be plain, not fast or small.

mod ask;
mod image;
mod listing;
mod open;
mod pack;
mod table;

pub use ask::{answer, batch};
pub use image::{count, image, places, sections, Section};
pub use listing::{listed, listing};
pub use open::{check, graph, open, unpack, Neighbour, Opened};
pub use pack::{pack, pack_graph, pack_into, Packed};
pub use table::{read, Graph};

/// The most nodes a table may have.
pub const MOST_NODES: usize = 30_000;
/// The most edges.
pub const MOST_EDGES: usize = 65_535;
/// The most trits.
pub const MOST_TRITS: usize = 125_536;
