//! glouds_unpack beside the plain unpacker and behind glouds_pack: tables,
//! refusals, and all memory lent or near it.

mod changes;
mod damaged;
mod run;
mod sound;

use glouds::owned;
use run::Cases;

/// Rust's empty slices: their pointers point at nothing.
#[test]
fn empty_slices() {
    let (none, mut table) = (Vec::new(), Vec::new());
    let (_, image) = owned::pack(&[0, 0]).unwrap();
    assert_eq!(glouds::unpack(&none, &mut table), Err(21));
    assert_eq!(glouds::unpack(&image, &mut table), Err(51));
    let mut table = vec![7; 3];
    assert_eq!(glouds::unpack(&none, &mut table), Err(21));
    assert_eq!(table, [7; 3]);
    assert_eq!(glouds::unpack(&image, &mut table), Ok(2));
    assert_eq!(table, [0, 0, 7]);
}

#[test]
fn beside_the_plain_unpacker() {
    let mut cases = Cases::new(101);
    sound::every_short_table(&mut cases);
    sound::every_short_trits(&mut cases);
    sound::random_graphs(&mut cases);
    sound::lengths(&mut cases);
    damaged::small(&mut cases);
    damaged::middle(&mut cases);
    damaged::limits(&mut cases);
    damaged::random_bytes(&mut cases);
    damaged::large(&mut cases);

    let numbers = || (21..=26).chain([51]);
    let hit: String = numbers()
        .map(|refusal| format!(" {refusal}:{}", cases.outcomes[refusal]))
        .collect();
    println!(
        "unpack: {} cases of {} graphs and damaged images, unpacked {}, refusals{hit}",
        cases.run, cases.graphs, cases.outcomes[0]
    );
    assert!(cases.graphs > 10_000 && cases.outcomes[0] > 30_000);
    assert!(numbers().all(|refusal| cases.outcomes[refusal] > 100));
    let known = cases.outcomes[0] + numbers().map(|at| cases.outcomes[at]).sum::<usize>();
    assert_eq!(known, cases.run);
}
