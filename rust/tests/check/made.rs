//! Images with what they are made of, and where their sections lie.

use glouds::plain::{self, Graph, Section};

/// Bytes of a number in each section, section 1 at index 0.
pub const WIDTHS: [usize; 9] = [1, 2, 8, 4, 4, 4, 2, 1, 2];

/// Bytes of an entry, for the sections whose count is of entries.
pub const ENTRIES: [usize; 9] = [0, 2, 0, 4, 4, 8, 4, 2, 2];

/// An image and what it is made of. It need not be proper.
#[derive(Clone)]
pub struct Made {
    pub trits: Vec<u8>,
    pub shadows: Vec<usize>,
    pub sections: Vec<Section>,
    pub bytes: Vec<u8>,
}

/// The image that trits and shadows give.
pub fn made(trits: &[u8], shadows: &[usize]) -> Made {
    let sections = plain::sections(trits, shadows);
    Made {
        trits: trits.to_vec(),
        shadows: shadows.to_vec(),
        bytes: plain::image(&sections),
        sections,
    }
}

/// The image of a graph.
pub fn image_of(graph: &Graph) -> Made {
    let packed = plain::pack_graph(graph).expect("an accepted graph");
    made(&packed.trits, &packed.shadows)
}

impl Made {
    /// Where each section's contents begin.
    pub fn starts(&self) -> Vec<usize> {
        let mut end = 0;
        self.sections
            .iter()
            .map(|section| {
                let start = end + 4;
                end = start + section.contents.len();
                start
            })
            .collect()
    }

    /// Where a section ends.
    pub fn end(&self, index: usize) -> usize {
        self.starts()[index] + self.sections[index].contents.len()
    }

    /// The refusal for a wrong count or entry of a section after the first.
    pub fn refusal(index: usize) -> u32 {
        if index == 1 {
            24
        } else {
            25
        }
    }
}

/// `list` with one more entry.
pub fn inserted<T: Clone>(list: &[T], at: usize, entry: T) -> Vec<T> {
    let mut longer = list.to_vec();
    longer.insert(at, entry);
    longer
}
