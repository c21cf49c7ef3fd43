//! The packer: the level walk over a graph, which gives trits and shadows.

use super::table::word;
use super::{image, read, sections, Graph};

/// What packing gives.
#[derive(Clone, Debug, PartialEq, Eq)]
pub struct Packed {
    /// For each level number, from 1, the table's number.
    pub order: Vec<u16>,
    /// The image.
    pub image: Vec<u8>,
    /// The trits, one a byte.
    pub trits: Vec<u8>,
    /// The shadow list H.
    pub shadows: Vec<usize>,
}

/// Packs a graph; refusal 8 if some node is reached by no root.
pub fn pack_graph(graph: &Graph) -> Result<Packed, u32> {
    let mut level = vec![0; graph.nodes() + 1]; // level numbers, 0 if not seen
    let mut queue = Vec::new(); // never shortened
    let mut trits = Vec::new();
    let mut shadows = Vec::new();
    for &root in &graph.roots {
        queue.push(root);
        level[root] = queue.len();
        trits.push(1);
    }
    trits.push(0);
    let mut taken = 0;
    while taken < queue.len() {
        for &operand in &graph.operands[queue[taken] - 1] {
            if level[operand] == 0 {
                queue.push(operand);
                level[operand] = queue.len();
                trits.push(1);
            } else {
                trits.push(2);
                shadows.push(level[operand]);
            }
        }
        trits.push(0);
        taken += 1;
    }
    if queue.len() < graph.nodes() {
        return Err(8);
    }
    Ok(Packed {
        order: queue.iter().map(|&node| word(node)).collect(),
        image: image(&sections(&trits, &shadows)),
        trits,
        shadows,
    })
}

/// Packs a table with room enough; refusals 1 to 6 and 8.
pub fn pack(table: &[u16]) -> Result<Packed, u32> {
    pack_graph(&read(table)?)
}

/// Packs a table into buffers of the lengths given; refusals 1 to 9.
pub fn pack_into(
    table: &[u16],
    order_len: usize,
    work_len: usize,
    image_len: usize,
) -> Result<Packed, u32> {
    let graph = read(table)?;
    if work_len < 3 * graph.nodes() || order_len < graph.nodes() {
        return Err(7);
    }
    let packed = pack_graph(&graph)?;
    if image_len < packed.image.len() {
        return Err(9);
    }
    Ok(packed)
}
