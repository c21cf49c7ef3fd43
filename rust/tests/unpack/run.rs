//! One image unpacked both ways, and what follows from its table.

use glouds::make::{self, Xorshift};
use glouds::owned;
use glouds::plain::{self, Graph};

/// Runs the cases and counts them.
pub struct Cases {
    pub rng: Xorshift,
    pub run: usize,
    pub graphs: usize,
    pub outcomes: [usize; 52],
}

impl Cases {
    pub fn new(seed: u64) -> Self {
        Cases {
            rng: Xorshift::new(seed),
            run: 0,
            graphs: 0,
            outcomes: [0; 52],
        }
    }

    /// Unpacks the first `len` of `bytes` into a table of `room` words that are
    /// junk, and compares the result and all memory, guards before and after
    /// the lent parts included.
    fn gives(&mut self, bytes: &[u8], len: usize, room: usize, expected: Result<&[u16], u32>) {
        self.run += 1;
        self.outcomes[expected.err().unwrap_or(0) as usize] += 1;

        let rng = &mut self.rng;
        let guard = 1 + self.run % 8;
        let bytes_before = make::guarded(bytes, guard, rng);
        let memory = bytes_before.clone();
        let mut table: Vec<u16> = make::filling(room + 2 * guard, rng)
            .map(|word| word as u16)
            .collect();
        let mut table_after = table.clone();
        if let Ok(words) = expected {
            table_after[guard..guard + words.len()].copy_from_slice(words);
        }

        let result = glouds::unpack(&memory[guard..guard + len], &mut table[guard..guard + room]);
        let case = || format!("room {room}, {}", make::shown(bytes, len));
        assert_eq!(result, expected.map(<[u16]>::len), "{}", case());
        assert!(table == table_after, "table: {}", case());
        // A shared slice: black_box, or the compiler may take it as unchanged.
        assert!(
            std::hint::black_box(&memory) == &bytes_before,
            "image changed: {}",
            case()
        );
    }

    /// Unpacks part of `bytes` both ways.
    pub fn part(&mut self, bytes: &[u8], len: usize, room: usize) -> Result<Vec<u16>, u32> {
        let expected = plain::unpack(&bytes[..len], room);
        self.gives(
            bytes,
            len,
            room,
            expected.as_deref().map_err(|&refusal| refusal),
        );
        expected
    }

    /// A proper image with no room, room one word short, just enough, one word
    /// more and much more, and some other room too short. Gives the table.
    fn rooms(&mut self, image: &[u8]) -> Vec<u16> {
        let len = image.len();
        let table = plain::unpack(image, usize::MAX).expect("a proper image");
        let need = table.len();
        for room in [need, need + 1, 2 * need + 100 + self.rng.below(900)] {
            assert_eq!(self.part(image, len, room).as_ref(), Ok(&table));
        }
        for room in [0, need - 1, 1 + self.rng.below(need - 1)] {
            assert_eq!(self.part(image, len, room), Err(51));
        }
        table
    }

    /// A graph's image unpacks to the graph with its nodes numbered in level
    /// order, and that table packs to the same image, in the order it has.
    pub fn graph(&mut self, graph: &Graph) -> Vec<u8> {
        self.graphs += 1;
        let packed = plain::pack_graph(graph).expect("an accepted graph");
        let (order, image) = owned::pack(&graph.table()).unwrap();
        assert!(order == packed.order && image == packed.image, "{graph:?}");

        let table = self.rooms(&image);
        let due = make::in_order(graph, &packed.order).table();
        assert!(table == due, "{graph:?}");
        let (order, again) = owned::pack(&table).unwrap();
        assert!(again == image, "{graph:?}");
        assert!(order.iter().copied().eq(1..=table[0]), "{graph:?}");
        image
    }

    /// An image that may be refused: with room, with too little and with none;
    /// a large one with one of these. The checker's refusal comes first,
    /// whatever the room.
    pub fn damaged(&mut self, bytes: &[u8], len: usize, need: usize) -> u32 {
        let refusal = plain::check(&bytes[..len]);
        let rooms = [need + self.rng.below(9), self.rng.below(need), 0];
        let first = self.run % 3;
        let tried = if len > 20_000 {
            &rooms[first..=first]
        } else {
            &rooms
        };
        for &room in tried {
            if refusal == 0 {
                let _ = self.part(bytes, len, room);
            } else {
                self.gives(bytes, len, room, Err(refusal));
            }
        }
        refusal
    }

    /// A whole image that may be refused.
    pub fn whole(&mut self, bytes: &[u8], need: usize) -> u32 {
        self.damaged(bytes, bytes.len(), need)
    }

    /// Any image: if proper, its table must pack to it.
    pub fn proper_or_not(&mut self, image: &[u8], need: usize) {
        if self.whole(image, need) == 0 {
            let table = self.rooms(image);
            let (order, again) = owned::pack(&table).unwrap();
            assert!(again == image, "{table:?}");
            assert!(order.into_iter().eq(1..=table[0]), "{table:?}");
        }
    }
}
