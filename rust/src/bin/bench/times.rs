//! Timing functions in turns, and the lines that show two of them.

use std::time::Instant;

/// Rounds that count; one more before them warms up.
pub const ROUNDS: usize = 41;

/// Median and least over all rounds, in nanoseconds a unit.
pub struct Times {
    pub median: f64,
    pub least: f64,
}

impl Times {
    fn of(mut rounds: Vec<f64>) -> Self {
        rounds.sort_by(f64::total_cmp);
        Times {
            median: rounds[rounds.len() / 2],
            least: rounds[0],
        }
    }
}

/// Calls the functions in turns, each `repeats` times a round; one call goes
/// over `units` units.
pub fn in_turns<const N: usize>(
    repeats: usize,
    units: usize,
    mut calls: [&mut dyn FnMut(); N],
) -> [Times; N] {
    let mut rounds = [const { Vec::new() }; N];
    for round in 0..=ROUNDS {
        for (call, list) in calls.iter_mut().zip(&mut rounds) {
            let start = Instant::now();
            for _ in 0..repeats {
                call();
            }
            let time = start.elapsed().as_nanos() as f64 / (repeats * units) as f64;
            if round > 0 {
                list.push(time);
            }
        }
    }
    rounds.map(Times::of)
}

/// Prints the heading of a block.
pub fn heading(what: [&str; 2], names: [&str; 2]) {
    println!();
    println!(
        "{:<24}{:>8}{:>11}{:>8}{:>11}{:>8}{:>11}{:>8}",
        what[0], what[1], names[0], "least", names[1], "least", "ratio med", "least"
    );
}

/// Prints one function's times beside another's, and the ratios.
pub fn line(name: &str, count: usize, [one, other]: [&Times; 2]) {
    println!(
        "{name:<24}{count:>8}{:>11.2}{:>8.2}{:>11.2}{:>8.2}{:>11.2}{:>8.2}",
        one.median,
        one.least,
        other.median,
        other.least,
        one.median / other.median,
        one.least / other.least
    );
}
