//! Images with damage: small, of middle size, of many nodes and the largest, and
//! random bytes.

use crate::made::{image_of, Made};
use crate::run::Cases;
use glouds::make::{self, Xorshift};
use glouds::plain::{self, Graph};

impl Cases {
    /// All kinds of damage.
    fn damages(&mut self, image: &Made, times: usize) {
        self.few_cuts(image);
        self.more(image);
        self.counts(image);
        self.shadows(image);
        self.numbers(image);
        self.orders(image);
        self.made_up_ranks(image);
        self.two_faults(image);
        self.rules(image);
        self.changed_trits(image, times);
        self.mixtures(image, times);
        self.random_damage(image, times);
    }
}

/// Small images: every byte, every cut and all other damage.
pub fn small(cases: &mut Cases) {
    let rng = &mut Xorshift::new(41);
    let mut images = vec![
        image_of(&Graph::default()),
        image_of(&plain::read(&make::DRAWN).unwrap()),
        image_of(&make::chain(4)),
        image_of(&make::all_roots(4)),
        image_of(&make::used_by_all(3, 7)),
    ];
    for m in 0..8 {
        images.push(image_of(&make::loops(m)));
    }
    for _ in 0..30 {
        let n = 1 + rng.below(8);
        let c = 1 + rng.below(n);
        let m = n - c + rng.below(8);
        images.push(image_of(&make::random(n, m, c, rng)));
    }
    for image in &images {
        cases.every_byte(image);
        cases.cuts(image);
        cases.damages(image, 100);
    }
    // Some with more than one sample, L a multiple of 25 among them.
    for (n, m, c) in [(6, 15, 3), (6, 16, 3), (9, 12, 2), (10, 30, 9), (5, 60, 4)] {
        let image = image_of(&make::random(n, m, c, rng));
        cases.cuts(&image);
        cases.damages(&image, 100);
    }
}

/// Images of several mark words and samples.
pub fn middle(cases: &mut Cases) {
    let rng = &mut Xorshift::new(43);
    for graph in [
        make::random(200, 330, 20, rng),
        make::random(180, 189, 180, rng), // L = 550
        make::random(128, 300, 1, rng),
        make::loops(272), // L = 275
        make::used_by_all(65, 200),
        make::chain(200),
    ] {
        let image = image_of(&graph);
        cases.cuts(&image);
        cases.damages(&image, 200);
    }
}

/// Images on each side of 2,048 nodes, where section 5 is checked another way.
pub fn many_nodes(cases: &mut Cases) {
    let rng = &mut Xorshift::new(53);
    for n in [2_048, 2_049] {
        for graph in [
            make::random(n, n + 1_000, 3, rng),
            make::used_at_random(n, 1_000, rng),
            make::used_in_turn(n, n + 500),
            make::used_by_all(n, 1_500),
        ] {
            cases.damages(&image_of(&graph), 60);
        }
    }
}

/// The largest images.
pub fn large(cases: &mut Cases) {
    let rng = &mut Xorshift::new(47);
    let mut graphs = make::largest(rng);
    graphs.push(make::used_by_all(30_000, 5_724)); // L = 65,725

    // From L = 81,880 on the checker's samples lie further apart.
    graphs.push(make::used_at_random(8_172, 65_534, rng));
    graphs.push(make::used_at_random(8_172, 65_535, rng));
    let mut images: Vec<Made> = graphs.iter().map(image_of).collect();
    images.dedup_by(|one, other| one.bytes == other.bytes);
    for image in images {
        cases.few_cuts(&image);
        cases.more(&image);
        cases.few_numbers(&image);
        if image.shadows.len() > 200 {
            cases.shadows(&image);
        }
        cases.made_up_ranks(&image);
        cases.rules(&image);
        cases.changed_trits(&image, 4);
        cases.mixtures(&image, 2);
        cases.random_damage(&image, 30);
    }
}

/// Random bytes: alone, as trytes after a small count, after a proper section
/// 1, and after proper sections 1 and 2.
pub fn random_bytes(cases: &mut Cases) {
    let rng = &mut Xorshift::new(61);
    for round in 0..20_000 {
        let len = rng.below(120);
        let mut bytes: Vec<u8> = (0..len).map(|_| rng.bits() as u8).collect();
        match round % 4 {
            0 => {}
            1 => {
                for byte in &mut bytes {
                    *byte %= 243;
                }
                bytes.splice(..len.min(4), [rng.below(60) as u8, 0, 0, 0]);
            }
            _ => {
                let n = 1 + rng.below(5);
                let m = n + rng.below(5);
                let image = image_of(&make::random(n, m, 1 + rng.below(n), rng));
                let kept = image.end(round % 4 - 2);
                bytes.splice(..0, image.bytes[..kept].iter().copied());
            }
        }
        cases.whole(&bytes);
    }
}
