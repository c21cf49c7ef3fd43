//! Small tables cut, changed, lengthened, and with every room.

use crate::numberings::same;
use crate::run::{need, Cases, Room};
use crate::tables::written_tables;
use glouds::make::{self, Xorshift};
use glouds::plain;

impl Cases {
    /// A table with each buffer one too short, exact or one longer, or empty.
    fn rooms(&mut self, table: &[u16]) {
        let need = need(table);
        let around = |exact: usize| {
            let mut list = vec![0, exact.saturating_sub(1), exact, exact + 1];
            list.dedup();
            list
        };
        for order in around(need.order) {
            for work in around(need.work) {
                for image in around(need.image) {
                    let room = Room { order, work, image };
                    let _ = self.table(table, room);
                }
            }
        }
    }

    /// As `rooms`, but only one buffer at a time: for large tables.
    pub fn few_rooms(&mut self, table: &[u16]) {
        let exact = need(table);
        let mut list = [exact; 5];
        list[1].order -= 1;
        list[2].work -= 1;
        list[3].image -= 1;
        list[4].image += 1;
        for room in list {
            let _ = self.table(table, room);
        }
    }

    /// A table cut at each length, the rest of it still following in memory.
    fn cuts(&mut self, table: &[u16]) {
        let room = need(table);
        let whole = plain::pack(table).is_ok();
        for len in 0..table.len() {
            let result = self.part(table, len, room);
            assert!(!whole || result == Err(1));
        }
    }

    /// A table with each word changed in many ways, and with words appended.
    /// A changed graph gives another image, unless it is the same renumbered.
    fn damages(&mut self, table: &[u16]) {
        let before = plain::read(table).and_then(|graph| {
            let packed = plain::pack_graph(&graph)?;
            Ok((graph, packed.image))
        });
        let n = table[0];
        for at in 0..table.len() {
            let old = table[at];
            let new = [
                0,
                1,
                2,
                old.wrapping_sub(1),
                old.wrapping_add(1),
                n,
                n.wrapping_add(1),
                1 + self.rng.below(usize::from(n) + 1) as u16,
                old ^ 0x100,
                old | 0x8000,
                30_000,
                30_001,
                u16::MAX,
            ];
            for word in new {
                let mut changed = table.to_vec();
                changed[at] = word;
                let after = self.enough(&changed);
                if let (Ok((graph, image)), Ok(packed)) = (&before, after) {
                    let graph_after = plain::read(&changed).unwrap();
                    let equal = packed.image == *image;
                    assert_eq!(equal, same(graph, &graph_after), "{table:?} {changed:?}");
                }
            }
        }
        for more in [&[0][..], &[1], &[0, 0], &[u16::MAX; 9]] {
            let _ = self.enough(&[table, more].concat());
        }
    }
}

/// Tables with two faults, and the refusal that comes first in order.
const TWO_FAULTS: [(&[u16], u32); 7] = [
    (&[2, 0, 0, 1, 1, 9], 6),    // before 8
    (&[2, 1, 3, 0, 1, 9], 3),    // before 4
    (&[2, 1, 3, 65_535], 3),     // before 2
    (&[2, 0, 0, 3, 1, 1, 9], 5), // before 4
    (&[2, 0, 0, 3, 1, 9, 1], 4), // before 5
    (&[1, 0, 3, 1, 1], 5),       // before 1
    (&[3, 0, 2, 1, 4, 1], 3),    // before 1
];

/// Small tables: written out, of a few shapes, and at random.
fn small_tables(rng: &mut Xorshift) -> Vec<Vec<u16>> {
    let mut tables = written_tables();
    tables.push(make::chain(9).table());
    tables.push(make::loops(9).table());
    tables.push(make::used_by_all(5, 12).table());
    for round in 0..80 {
        let n = 1 + rng.below(9);
        let c = 1 + rng.below(n);
        let m = n - c + rng.below(12);
        tables.push(make::random(n, m, c, rng).table());
        if round % 4 == 0 {
            tables.push(make::wild(n, m, c, rng).table());
        }
    }
    tables
}

/// Small tables cut, changed, lengthened, and with every room.
pub fn damaged(cases: &mut Cases) {
    let rng = &mut Xorshift::new(23);
    let mut tables = small_tables(rng);
    for (table, refusal) in TWO_FAULTS {
        assert_eq!(cases.enough(table), Err(refusal));
        tables.push(table.to_vec());
    }
    // Two of middle size: more than one mark word and several samples.
    tables.push(make::random(200, 330, 20, rng).table());
    tables.push(make::random(130, 500, 130, rng).table());
    for table in &tables {
        cases.rooms(table);
        if !table.is_empty() {
            cases.cuts(table);
            cases.damages(table);
        }
    }
}
