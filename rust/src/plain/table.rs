//! Tables and the graphs they say.

use super::{MOST_EDGES, MOST_NODES};

/// What a table says: `operands[i - 1]` lists the operands of node i.
#[derive(Clone, Debug, Default, PartialEq, Eq, Hash)]
pub struct Graph {
    /// Operands of each node, in order.
    pub operands: Vec<Vec<usize>>,
    /// Roots, in order.
    pub roots: Vec<usize>,
}

impl Graph {
    /// n.
    pub fn nodes(&self) -> usize {
        self.operands.len()
    }

    /// m.
    pub fn edges(&self) -> usize {
        self.operands.iter().map(Vec::len).sum()
    }

    /// The graph as a table.
    pub fn table(&self) -> Vec<u16> {
        let mut table = vec![word(self.nodes())];
        for list in &self.operands {
            table.push(word(list.len()));
            table.extend(list.iter().map(|&operand| word(operand)));
        }
        table.push(word(self.roots.len()));
        table.extend(self.roots.iter().map(|&root| word(root)));
        table
    }
}

/// A number that is known to fit, as a table's word.
pub(super) fn word(number: usize) -> u16 {
    u16::try_from(number).expect("a word of a table")
}

/// The words of a table that are not yet read.
type Words<'a> = std::slice::Iter<'a, u16>;

/// Reads a word that is called for; refusal 1.
fn next(words: &mut Words) -> Result<usize, u32> {
    words.next().map(|&word| usize::from(word)).ok_or(1)
}

/// Reads the operands of each of n nodes; refusals 1 to 3.
fn read_operands(words: &mut Words, n: usize) -> Result<Vec<Vec<usize>>, u32> {
    let mut m = 0;
    let mut operands = Vec::new();
    for _ in 0..n {
        let count = next(words)?;
        m += count;
        if m > MOST_EDGES {
            return Err(2);
        }
        let mut list = Vec::new();
        for _ in 0..count {
            let operand = next(words)?;
            if operand < 1 || operand > n {
                return Err(3);
            }
            list.push(operand);
        }
        operands.push(list);
    }
    Ok(operands)
}

/// Reads the roots, among n nodes; refusals 1, 4 and 5.
fn read_roots(words: &mut Words, n: usize) -> Result<Vec<usize>, u32> {
    let c = next(words)?;
    let mut named = vec![false; n + 1];
    let mut roots = Vec::new();
    for _ in 0..c {
        let root = next(words)?;
        if root < 1 || root > n {
            return Err(4);
        }
        if named[root] {
            return Err(5);
        }
        named[root] = true;
        roots.push(root);
    }
    Ok(roots)
}

/// Reads a table front to back; refusals 1 to 6.
pub fn read(table: &[u16]) -> Result<Graph, u32> {
    let words = &mut table.iter();
    let n = next(words)?;
    if n > MOST_NODES {
        return Err(2);
    }
    let operands = read_operands(words, n)?;
    let roots = read_roots(words, n)?;
    if words.next().is_some() {
        return Err(6);
    }
    Ok(Graph { operands, roots })
}
