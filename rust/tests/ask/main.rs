//! glouds_ask beside the plain answerer and behind glouds_pack: answers,
//! refusals, the tally, and all memory lent or near it.

mod damaged;
mod edges;
mod faults;
mod lent;
mod questions;
mod run;
mod sound;
mod written;

use run::Cases;

#[test]
fn beside_the_plain_answerer() {
    let mut cases = Cases::new(137);
    sound::every_short_table(&mut cases);
    sound::every_short_trits(&mut cases);
    sound::random_graphs(&mut cases);
    sound::lengths(&mut cases);
    damaged::small(&mut cases);
    damaged::middle(&mut cases);
    damaged::random_bytes(&mut cases);
    damaged::large(&mut cases);

    count_batches(&cases);
    count_answers(&cases);
}

/// Shows how many batches ran and how many got each refusal. No other number
/// was given.
fn count_batches(cases: &Cases) {
    let numbers = || (41..=43).chain(21..=26);
    let show = |counts: &[usize]| -> String {
        numbers()
            .filter(|&number| counts[number] > 0)
            .map(|number| format!(" {number}:{}", counts[number]))
            .collect()
    };
    println!(
        "ask: {} batches on {} graphs and damaged images, run {}, refusals{}",
        cases.run,
        cases.graphs,
        cases.outcomes[0],
        show(&cases.outcomes)
    );
    println!(
        "ask: more than one fault, by the first:{}",
        show(&cases.together)
    );
    assert!(cases.graphs > 3_000 && cases.outcomes[0] > 30_000);
    assert!(numbers().all(|number| cases.outcomes[number] > 100));
    assert!((41..=43).all(|number| cases.together[number] > 100));
    let known = cases.outcomes[0] + numbers().map(|at| cases.outcomes[at]).sum::<usize>();
    assert_eq!(known, cases.run);
}

/// Shows the answers to each kind of question by code, and those of each sort.
fn count_answers(cases: &Cases) {
    for (kind, [answered, unknown, first, second]) in cases.answers.into_iter().enumerate() {
        if kind < 7 {
            println!("ask: kind {kind}: answered {answered}, 32:{first} 33:{second}");
            assert!(answered > 10_000 && first > 1_000 && second > 1_000);
            assert_eq!(unknown, 0);
        } else {
            println!("ask: unknown kinds: 31:{unknown}");
            assert!(unknown > 10_000);
            assert_eq!((answered, first, second), (0, 0, 0));
        }
    }
    println!("ask: real {}, shadow {}", cases.sorts[1], cases.sorts[2]);
    assert!(cases.sorts[1] > 100_000 && cases.sorts[2] > 100_000);
}
