//! glouds_check beside the plain checker: proper images, damaged ones, and all
//! memory lent or near it.

mod bytes;
mod damaged;
mod entries;
mod limits;
mod made;
mod mixtures;
mod orders;
mod run;
mod sound;
mod trits;

use run::Cases;

/// Rust's empty slice: its pointer points at nothing.
#[test]
fn empty_slice() {
    assert_eq!(glouds::check(&[]), 21);
    assert_eq!(glouds::check(&Vec::new()), 21);
}

#[test]
fn beside_the_plain_checker() {
    let mut cases = Cases::new(53);
    sound::packed(&mut cases);
    sound::every_trits(&mut cases);
    damaged::small(&mut cases);
    damaged::middle(&mut cases);
    damaged::many_nodes(&mut cases);
    damaged::large(&mut cases);
    limits::limits(&mut cases);
    damaged::random_bytes(&mut cases);

    let hit: String = (21..=26)
        .map(|refusal| format!(" {refusal}:{}", cases.outcomes[refusal]))
        .collect();
    println!(
        "check: {} cases, proper {}, refusals{hit}",
        cases.run, cases.outcomes[0]
    );
    assert!(cases.run > 100_000 && cases.outcomes[0] > 10_000);
    assert!(cases.outcomes[21..].iter().all(|&count| count > 100));
}
