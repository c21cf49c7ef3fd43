//! One table packed both ways, with guards around all that is lent.

use glouds::make::Xorshift;
use glouds::plain::{self, Graph, Packed};

/// Lengths of the buffers lent to one call.
#[derive(Clone, Copy, Debug)]
pub struct Room {
    pub order: usize,
    pub work: usize,
    pub image: usize,
}

/// The buffers lent to one call, each with a guard before and after it.
#[derive(Clone)]
struct Buffers {
    guard: usize,
    order: Vec<u16>,
    work: Vec<u32>,
    image: Vec<u8>,
}

/// Runs the cases and counts them.
pub struct Cases {
    pub rng: Xorshift,
    pub run: usize,
    pub outcomes: [usize; 10],
}

/// Copies `new` over the front of the lent part, which begins at `guard`.
fn lay<T: Copy>(buffer: &mut [T], guard: usize, new: &[T]) {
    buffer[guard..guard + new.len()].copy_from_slice(new);
}

/// The words of a table, or the ends of a long one.
fn shown(table: &[u16]) -> String {
    let len = table.len();
    if len <= 80 {
        format!("{table:?}")
    } else {
        format!(
            "{len} words, {:?} .. {:?}",
            &table[..40],
            &table[len - 20..]
        )
    }
}

/// The room a table calls for. One that is refused gets some that would do.
pub fn need(table: &[u16]) -> Room {
    let n = table.first().map_or(0, |&n| usize::from(n) % 30_001);
    // No more than the nodes it has words for: a refusal before 7 needs none.
    let n = n.min(table.len());
    Room {
        order: n,
        work: 3 * n,
        image: plain::pack(table).map_or(99, |packed| packed.image.len()),
    }
}

impl Buffers {
    /// Packs a table into the parts between the guards.
    fn pack(&mut self, table: &[u16], room: Room) -> Result<usize, u32> {
        let guard = self.guard;
        glouds::pack(
            table,
            &mut self.order[guard..guard + room.order],
            &mut self.work[guard..guard + room.work],
            &mut self.image[guard..guard + room.image],
        )
    }

    /// The buffers after a call that gives `expected`, from those before it.
    fn after(&self, table: &[u16], expected: &Result<Packed, u32>) -> Self {
        let mut after = self.clone();
        if let Ok(packed) = expected {
            lay(&mut after.order, self.guard, &packed.order);
            lay(&mut after.image, self.guard, &packed.image);
        }
        if matches!(expected, Ok(_) | Err(8 | 9)) {
            let cleared = vec![0; 3 * usize::from(table[0])];
            lay(&mut after.work, self.guard, &cleared);
        }
        after
    }
}

impl Cases {
    pub fn new(seed: u64) -> Self {
        Cases {
            rng: Xorshift::new(seed),
            run: 0,
            outcomes: [0; 10],
        }
    }

    /// Buffers of junk. Work is cleared or has all bits set at times.
    fn buffers(&mut self, room: Room) -> Buffers {
        let rng = &mut self.rng;
        let guard = 1 + self.run % 8;
        let order = (0..room.order + 2 * guard)
            .map(|_| rng.bits() as u16)
            .collect();
        let image = (0..room.image + 2 * guard)
            .map(|_| rng.bits() as u8)
            .collect();
        let work = (0..room.work + 2 * guard)
            .map(|_| match self.run % 4 {
                0 => 0,
                1 => u32::MAX,
                _ => rng.bits() as u32,
            })
            .collect();
        Buffers {
            guard,
            order,
            work,
            image,
        }
    }

    /// Packs the first `len` of `words` both ways and compares the results and
    /// every buffer, guards before and after the lent part included.
    pub fn part(&mut self, words: &[u16], len: usize, room: Room) -> Result<Packed, u32> {
        let table = &words[..len];
        let words_before = words.to_vec();
        let expected = plain::pack_into(table, room.order, room.work, room.image);
        self.run += 1;
        let refusal = expected.as_ref().err().copied().unwrap_or(0);
        self.outcomes[refusal as usize] += 1;

        let mut lent = self.buffers(room);
        let after = lent.after(table, &expected);
        let result = lent.pack(table, room);
        let length = expected.as_ref().map(|packed| packed.image.len());
        let case = || format!("table {}, {room:?}", shown(table));
        assert_eq!(result, length.map_err(|&refusal| refusal), "{}", case());
        assert!(lent.order == after.order, "order list: {}", case());
        assert!(lent.work == after.work, "work: {}", case());
        assert!(lent.image == after.image, "image: {}", case());
        // A shared slice: black_box, or the compiler may take it as unchanged.
        assert!(
            std::hint::black_box(words) == words_before,
            "words changed: {}",
            case()
        );
        expected
    }

    /// A whole table; some words that are no part of it follow in memory.
    pub fn table(&mut self, table: &[u16], room: Room) -> Result<Packed, u32> {
        let words = [table, &[0, 1, 1, 0][..self.run % 5]].concat();
        self.part(&words, table.len(), room)
    }

    /// A table with just the room it calls for, or up to three more of each, or
    /// up to 199 more.
    pub fn enough(&mut self, table: &[u16]) -> Result<Packed, u32> {
        let mut room = need(table);
        if !self.run.is_multiple_of(3) {
            let more = if self.run.is_multiple_of(8) { 200 } else { 4 };
            room.order += self.rng.below(more);
            room.work += self.rng.below(more);
            room.image += self.rng.below(more);
        }
        self.table(table, room)
    }

    /// A graph that must be accepted.
    pub fn accepted(&mut self, graph: &Graph) -> Packed {
        self.enough(&graph.table()).expect("an accepted table")
    }
}
