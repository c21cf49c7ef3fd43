//! glouds_pack beside the plain packer: results and all memory lent or near it.

mod damaged;
mod large;
mod numberings;
mod run;
mod tables;

use glouds::plain;
use run::Cases;

/// Rust's empty slices: their pointers point at nothing.
#[test]
fn empty_slices() {
    let (none, mut order, mut work) = (Vec::new(), Vec::new(), Vec::new());
    let mut image = Vec::new();
    assert_eq!(work.as_ptr() as usize, align_of::<u32>());
    for (table, refusal) in [(&none[..], 1), (&[1, 0, 1, 1], 7), (&[0, 0], 9)] {
        let result = glouds::pack(table, &mut order, &mut work, &mut image);
        assert_eq!(result, Err(refusal));
    }
    let mut image = vec![7; 56];
    let result = glouds::pack(&[0, 0], &mut order, &mut work, &mut image);
    assert_eq!(result, Ok(55));
    assert_eq!(image[..55], plain::pack(&[0, 0]).unwrap().image);
    assert_eq!(image[55], 7);
}

#[test]
fn beside_the_plain_packer() {
    let mut cases = Cases::new(29);
    for table in tables::written_tables() {
        let _ = cases.enough(&table);
    }
    tables::every_short_run(&mut cases);
    numberings::every_small_graph(&mut cases);
    numberings::random_graphs(&mut cases);
    tables::lengths(&mut cases);
    large::limits(&mut cases);
    damaged::damaged(&mut cases);
    large::large(&mut cases);

    let hit: String = (1..=9)
        .map(|refusal| format!(" {refusal}:{}", cases.outcomes[refusal]))
        .collect();
    println!(
        "pack: {} cases, packed {}, refusals{hit}",
        cases.run, cases.outcomes[0]
    );
    assert!(cases.outcomes.iter().all(|&count| count > 0));
}
