//! The table that document 01 draws, and tables as words and as bytes.

/// The graph that document 01 draws.
pub const DRAWN: [u16; 22] = [
    8, 2, 2, 3, 1, 4, 2, 4, 5, 2, 6, 7, 2, 7, 8, 1, 8, 0, 1, 7, 1, 1,
];

/// Document 01's listing of it.
pub const LISTING: &str = "\
nodes 8 edges 11 roots 1 trits 21 shadows 4 bytes 105
1: 2 3 |
2: 4 | 1
3: 4* 5 | 1
4: 6 7 | 2 3*
5: 7* 8 | 3
6: 8* | 4
7: | 4 5* 8*
8: 7* | 5 6*
";

/// The bytes of words, low byte first.
pub fn bytes(words: &[u16]) -> Vec<u8> {
    words.iter().flat_map(|word| word.to_le_bytes()).collect()
}

/// Every run of `len` words below `radix`.
pub fn every_run(radix: u16, len: usize) -> impl Iterator<Item = Vec<u16>> {
    std::iter::successors(Some(vec![0; len]), move |words| {
        let at = words.iter().rposition(|&word| word + 1 < radix)?;
        let mut next = words.clone();
        next[at] += 1;
        next[at + 1..].fill(0);
        Some(next)
    })
}
