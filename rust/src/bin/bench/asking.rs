//! glouds_ask beside ordinary lists that answer the same questions into the
//! same words. Kind 4 is the buyer's order 14: 20,000 nodes, 22,000 edges, 100,000
//! questions in one batch, the check of the image counted in.

use crate::packing;
use crate::times::{self, Times};
use glouds::make::{self, Xorshift};
use glouds::plain::{self, Graph, Opened};
use glouds::Tally;
use std::hint::black_box;

const NODES: usize = 20_000;
const EDGES: usize = 22_000;
const QUESTIONS: usize = 100_000;

/// A neighbour and its sort.
type Pair = (u32, u32);

/// What an ordinary program keeps: growable lists, with the answers in them.
struct Lists {
    trits: Vec<u8>,
    /// Zeros, ones and twos before each place, L included.
    before: Vec<[u32; 3]>,
    places: [Vec<u32>; 3],
    operands: Vec<Vec<Pair>>,
    users: Vec<Vec<Pair>>,
    operand_counts: Vec<u32>,
    user_counts: Vec<u32>,
}

impl Lists {
    fn of(opened: &Opened) -> Self {
        let pair = |&(node, sort): &(usize, u32)| (node as u32, sort);
        let pairs = |lists: &[Vec<_>]| -> Vec<Vec<Pair>> {
            lists
                .iter()
                .map(|list| list.iter().map(pair).collect())
                .collect()
        };
        let counts =
            |lists: &[Vec<_>]| -> Vec<u32> { lists.iter().map(|list| list.len() as u32).collect() };
        let mut before = vec![[0; 3]];
        for (place, &trit) in opened.trits.iter().enumerate() {
            let mut next = before[place];
            next[usize::from(trit)] += 1;
            before.push(next);
        }
        Lists {
            trits: opened.trits.clone(),
            before,
            places: opened
                .places
                .clone()
                .map(|list| list.iter().map(|&place| place as u32).collect()),
            operands: pairs(&opened.operands),
            users: pairs(&opened.users),
            operand_counts: counts(&opened.operands),
            user_counts: counts(&opened.users),
        }
    }

    /// Answers a batch whose questions are all of one kind.
    fn answer(&self, kind: u32, questions: &[u32], answers: &mut [u32]) -> Tally {
        match kind {
            0 => batch(questions, answers, 0, |a, b| {
                count(self.trits.get(a).map(|&trit| u32::from(trit)), b)
            }),
            1 => batch(questions, answers, 1, |a, b| {
                if a > 2 {
                    return Err(32);
                }
                let before = self.before.get(b).ok_or(33u32)?;
                Ok((before[a], 0))
            }),
            2 => batch(questions, answers, 2, |a, b| {
                let places = self.places.get(a).ok_or(32u32)?;
                let place = places.get(b.wrapping_sub(1)).ok_or(33u32)?;
                Ok((*place, 0))
            }),
            3 => batch(questions, answers, 3, |a, b| {
                count(self.operand_counts.get(a.wrapping_sub(1)).copied(), b)
            }),
            4 => batch(questions, answers, 4, |a, b| {
                neighbour(&self.operands, a, b)
            }),
            5 => batch(questions, answers, 5, |a, b| {
                count(self.user_counts.get(a.wrapping_sub(1)).copied(), b)
            }),
            _ => batch(questions, answers, 6, |a, b| neighbour(&self.users, a, b)),
        }
    }
}

/// The answer of a kind whose b is 0.
fn count(value: Option<u32>, b: usize) -> Result<Pair, u32> {
    match value {
        None => Err(32),
        Some(_) if b != 0 => Err(33),
        Some(value) => Ok((value, 0)),
    }
}

/// The b-th neighbour of node a.
fn neighbour(lists: &[Vec<Pair>], a: usize, b: usize) -> Result<Pair, u32> {
    let list = lists.get(a.wrapping_sub(1)).ok_or(32u32)?;
    list.get(b.wrapping_sub(1)).copied().ok_or(33)
}

/// Answers questions of one kind, by `one`, into words, and counts them.
fn batch(
    questions: &[u32],
    answers: &mut [u32],
    kind: u32,
    one: impl Fn(usize, usize) -> Result<Pair, u32>,
) -> Tally {
    let mut tally = Tally::default();
    for (question, answer) in questions.chunks_exact(3).zip(answers.chunks_exact_mut(3)) {
        let given = if question[0] == kind {
            one(question[1] as usize, question[2] as usize)
        } else {
            Err(31)
        };
        let words = match given {
            Ok((value, sort)) => [0, value, sort],
            Err(code) => [code, 0, 0],
        };
        answer.copy_from_slice(&words);
        tally.asked += 1;
        tally.answered += u32::from(words[0] == 0);
        tally.refused += u32::from(words[0] != 0);
    }
    tally
}

/// Random questions of one kind, each with an answer; those of kinds 4 and 6
/// are random edges.
fn questions(opened: &Opened, kind: u32, rng: &mut Xorshift) -> Vec<u32> {
    let numbered = |lists: &[Vec<_>]| -> Vec<[usize; 2]> {
        let all = |(index, list): (usize, &Vec<_>)| (1..=list.len()).map(move |b| [index + 1, b]);
        lists.iter().enumerate().flat_map(all).collect()
    };
    let edges = match kind {
        4 => numbered(&opened.operands),
        6 => numbered(&opened.users),
        _ => Vec::new(),
    };
    let l = opened.trits.len();
    let mut list = Vec::new();
    for _ in 0..QUESTIONS {
        let t = rng.below(3);
        let [a, b] = match kind {
            0 => [rng.below(l), 0],
            1 => [t, rng.below(l + 1)],
            2 => [t, 1 + rng.below(opened.places[t].len())],
            3 | 5 => [1 + rng.below(NODES), 0],
            _ => edges[rng.below(edges.len())],
        };
        list.extend([kind, a as u32, b as u32]);
    }
    list
}

/// Times a batch of one kind on both sides, in nanoseconds a question.
fn measure(image: &[u8], opened: &Opened, lists: &Lists, kind: u32) -> [Times; 2] {
    let questions = questions(opened, kind, &mut Xorshift::new(37));
    let mut ours = vec![0; questions.len()];
    let mut theirs = ours.clone();
    let all = Tally {
        asked: QUESTIONS as u32,
        answered: QUESTIONS as u32,
        refused: 0,
    };
    let times = times::in_turns(
        1,
        QUESTIONS,
        [
            &mut || {
                let mut tally = Tally::default();
                let refusal = glouds::ask(image, &questions, &mut ours, &mut tally);
                assert_eq!((refusal, tally), (0, all));
            },
            &mut || {
                let tally = lists.answer(kind, black_box(&questions), black_box(&mut theirs));
                assert_eq!(tally, all);
            },
        ],
    );
    assert!(ours == theirs);
    times
}

/// The graph of the buyer's order 14, from one root.
fn graph() -> Graph {
    make::random(NODES, EDGES, 1, &mut Xorshift::new(29))
}

/// Measures all kinds, kind 4 first, and packing and checking of the same graph.
pub fn run() {
    let graph = graph();
    let image = plain::pack_graph(&graph).expect("all are reached").image;
    let opened = plain::open(&image).expect("a proper image");
    let lists = Lists::of(&opened);
    println!();
    println!("A batch of questions on {NODES} nodes and {EDGES} edges, the check of the image");
    println!("counted in, beside growable lists with the answers in them: nanoseconds a");
    println!("question. Kind 4 beside child lists is the buyer's order 14.");
    times::heading(["kind", "asked"], ["ask med", "lists med"]);
    for (kind, name) in [
        (4, "4 operand"),
        (0, "0 trit"),
        (1, "1 rank"),
        (2, "2 select"),
        (3, "3 count of operands"),
        (5, "5 count of uses"),
        (6, "6 user"),
    ] {
        let [ours, theirs] = measure(&image, &opened, &lists, kind);
        times::line(name, QUESTIONS, [&ours, &theirs]);
    }
    println!();
    println!("Packing and checking the same graph: nanoseconds a trit.");
    let m = packing::measure(&graph);
    times::heading(["", "trits"], ["ours med", "other med"]);
    times::line("pack beside plain", m.trits, [&m.pack, &m.plain]);
    times::line("check beside pack", m.trits, [&m.check, &m.pack]);
}
