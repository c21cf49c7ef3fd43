//! Memory lent to a call: guards around it, what fills it, and how it is shown.

use super::Xorshift;

/// `bytes` with `guard` bytes of junk before and after, at most 8.
pub fn guarded(bytes: &[u8], guard: usize, rng: &mut Xorshift) -> Vec<u8> {
    let (front, back) = (rng.bits().to_le_bytes(), rng.bits().to_le_bytes());
    [&front[..guard], bytes, &back[..guard]].concat()
}

/// Words for a buffer that a call writes: junk, all cleared, or all bits set.
pub fn filling(count: usize, rng: &mut Xorshift) -> impl Iterator<Item = u64> + '_ {
    let fill = rng.below(6);
    (0..count).map(move |_| match fill {
        0 => 0,
        1 => u64::MAX,
        _ => rng.bits(),
    })
}

/// The first `len` of `bytes` for a message, or the ends of many.
pub fn shown(bytes: &[u8], len: usize) -> String {
    let ends = if len <= 300 { 300 } else { 60 };
    let (head, tail) = bytes[..len].split_at(len.min(ends));
    let tail = &tail[tail.len().saturating_sub(ends)..];
    format!("{len} bytes of {}: {head:?} .. {tail:?}", bytes.len())
}
