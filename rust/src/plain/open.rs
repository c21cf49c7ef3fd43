//! The checker and the unpacker: an image held to the rules and taken apart.

use super::{places, sections, Graph, MOST_EDGES, MOST_NODES, MOST_TRITS};

/// A neighbour: a node's level number and the edge's sort, 1 real, 2 shadow.
pub type Neighbour = (usize, u32);

/// A proper image taken apart. Nodes are level numbers, node i at index i - 1.
#[derive(Clone, Debug, PartialEq, Eq)]
pub struct Opened {
    /// The trits, one a byte.
    pub trits: Vec<u8>,
    /// The shadow list H.
    pub shadows: Vec<usize>,
    /// c.
    pub roots: usize,
    /// Operands of each node, in order.
    pub operands: Vec<Vec<Neighbour>>,
    /// Users of each node, in order of the edges' places.
    pub users: Vec<Vec<Neighbour>>,
    /// The places of the zeros, the ones and the twos.
    pub places: [Vec<usize>; 3],
}

/// Takes `count` bytes off the front of `rest`; refusal 21 if it has fewer.
fn take<'a>(rest: &mut &'a [u8], count: usize) -> Result<&'a [u8], u32> {
    let (taken, left) = rest.split_at_checked(count).ok_or(21u32)?;
    *rest = left;
    Ok(taken)
}

/// Takes a section's count.
fn take_count(rest: &mut &[u8]) -> Result<usize, u32> {
    let bytes = take(rest, 4)?;
    Ok(bytes
        .iter()
        .rev()
        .fold(0, |sum, &byte| 256 * sum + usize::from(byte)))
}

/// Section 1's trits, if its contents keep every rule but the limits of n and m.
fn proper_trits(trytes: &[u8], l: usize) -> Option<Vec<u8>> {
    let mut trits = Vec::new();
    for &tryte in trytes {
        if tryte > 242 {
            return None;
        }
        let mut left = tryte;
        for _ in 0..5 {
            trits.push(left % 3);
            left /= 3;
        }
    }
    if trits[l..].iter().any(|&trit| trit != 0) {
        return None;
    }
    trits.truncate(l);
    let zeros = places(&trits, 0);
    let ones = places(&trits, 1);
    if ones.len() + 1 != zeros.len() || trits[l - 1] != 0 {
        return None;
    }
    if trits[..zeros[0]].contains(&2) {
        return None;
    }
    // At least i ones precede the i-th zero: the i-th one stands before it.
    if zeros.iter().zip(&ones).any(|(zero, one)| zero < one) {
        return None;
    }
    Some(trits)
}

/// Takes section 1's count and trits; refusals 21, 22 for L, and 23.
fn take_trits(rest: &mut &[u8]) -> Result<Vec<u8>, u32> {
    let l = take_count(rest)?;
    if l > MOST_TRITS {
        return Err(22);
    }
    if l == 0 {
        return Err(23);
    }
    proper_trits(take(rest, l.div_ceil(5))?, l).ok_or(23)
}

/// Takes section 2's count and H, given the places of each trit; refusals 21
/// and 24.
fn take_shadows(rest: &mut &[u8], places: &[Vec<usize>; 3]) -> Result<Vec<usize>, u32> {
    let [_, ones, twos] = places;
    let k = take_count(rest)?;
    if k != twos.len() {
        return Err(24);
    }
    let mut shadows = Vec::new();
    for (entry, &place) in take(rest, 2 * k)?.chunks(2).zip(twos) {
        let shadow = usize::from(entry[0]) + 256 * usize::from(entry[1]);
        let seen = ones.partition_point(|&one| one < place);
        if shadow < 1 || shadow > seen {
            return Err(24);
        }
        shadows.push(shadow);
    }
    Ok(shadows)
}

/// Takes sections 3 to 9, which must be what sections 1 and 2 give; refusals
/// 21 and 25.
fn take_given(rest: &mut &[u8], trits: &[u8], shadows: &[usize]) -> Result<(), u32> {
    for section in &sections(trits, shadows)[2..] {
        if take_count(rest)? != section.count {
            return Err(25);
        }
        if take(rest, section.contents.len())? != section.contents {
            return Err(25);
        }
    }
    Ok(())
}

/// The operands and the users of each of n nodes, from the edges in order of
/// place. The super-root, which names the roots, is no user.
fn edges(trits: &[u8], shadows: &[usize], n: usize) -> [Vec<Vec<Neighbour>>; 2] {
    let mut operands = vec![Vec::new(); n];
    let mut users = vec![Vec::new(); n];
    let mut user = 0; // the super-root
    let mut ones = 0;
    let mut left = shadows.iter();
    for &trit in trits {
        let operand = match trit {
            0 => {
                user += 1;
                continue;
            }
            1 => {
                ones += 1;
                ones
            }
            _ => *left.next().expect("an entry of H for each 2"),
        };
        if user > 0 {
            operands[user - 1].push((operand, u32::from(trit)));
            users[operand - 1].push((user, u32::from(trit)));
        }
    }
    [operands, users]
}

/// Checks an image and takes it apart; refusals 21 to 26.
pub fn open(image: &[u8]) -> Result<Opened, u32> {
    let mut rest = image;
    let trits = take_trits(&mut rest)?;
    let places = [0, 1, 2].map(|t| places(&trits, t));
    let n = places[1].len();
    let c = places[0][0];
    let m = trits.len() - n - c - 1;
    if n > MOST_NODES || m > MOST_EDGES {
        return Err(22);
    }
    let shadows = take_shadows(&mut rest, &places)?;
    take_given(&mut rest, &trits, &shadows)?;
    if !rest.is_empty() {
        return Err(26);
    }
    let [operands, users] = edges(&trits, &shadows, n);
    Ok(Opened {
        trits,
        shadows,
        roots: c,
        operands,
        users,
        places,
    })
}

/// Checks an image: 0 if it is proper, else a refusal from 21 to 26.
pub fn check(image: &[u8]) -> u32 {
    open(image).err().unwrap_or(0)
}

/// The graph of an image, numbered in level order.
pub fn graph(opened: &Opened) -> Graph {
    let numbers = |list: &Vec<Neighbour>| list.iter().map(|&(node, _)| node).collect();
    Graph {
        operands: opened.operands.iter().map(numbers).collect(),
        roots: (1..=opened.roots).collect(),
    }
}

/// Unpacks an image into a buffer of `table_len` words: the table in level
/// order, or a refusal from 21 to 26 or 51.
pub fn unpack(image: &[u8], table_len: usize) -> Result<Vec<u16>, u32> {
    let table = graph(&open(image)?).table();
    if table_len < table.len() {
        return Err(51);
    }
    Ok(table)
}
