//! Listings, on both sides of the listing program's limit.

use crate::folder::Folder;
use crate::REFUSED;
use glouds::make::{self, bytes, Xorshift, DRAWN, LISTING};
use glouds::plain;

#[test]
fn lists() {
    let folder = Folder::new("lists").with("drawn", &bytes(&DRAWN));
    folder.run(&["list", "drawn"]).done(LISTING.as_bytes());
    folder
        .run_with(&["list", "-"], &bytes(&DRAWN))
        .done(LISTING.as_bytes());
    let empty = b"nodes 0 edges 0 roots 0 trits 1 shadows 0 bytes 55\n";
    folder.run_with(&["list", "-"], &bytes(&[0, 0])).done(empty);

    let rng = &mut Xorshift::new(229);
    for _ in 0..60 {
        let n = 1 + rng.below(60);
        let c = 1 + rng.below(n);
        let table = make::random(n, n - c + rng.below(90), c, rng).table();
        let ran = folder.run_with(&["list", "-"], &bytes(&table));
        ran.done(&plain::listing(&bytes(&table)));
    }
    for (table, number) in REFUSED {
        let ran = folder.run_with(&["list", "-"], &bytes(table));
        ran.refused("-", number);
        assert_eq!(ran.output, plain::listing(&bytes(table)));
    }
}

/// Both sides of the listing program's line of 8,000 bytes.
#[test]
fn lists_up_to_its_limit() {
    let folder = Folder::new("limit");
    let table = bytes(&make::all_roots(1_999).table());
    assert_eq!(table.len(), 8_000);
    folder
        .run_with(&["list", "-"], &table)
        .done(&plain::listing(&table));
    let longer = bytes(&make::used_by_all(1_999, 1).table());
    let odd = |bytes: &[u8]| [bytes, &[0]].concat();
    for bytes in [longer.clone(), odd(&table), odd(&[]), odd(&longer)] {
        let ran = folder.run_with(&["list", "-"], &bytes);
        ran.refused("-", 61);
        assert_eq!(ran.output, b"refused 61\n");
        assert_eq!(ran.output, plain::listing(&bytes));
    }
    let listing = plain::listed(&make::used_by_all(1_999, 1).table()).unwrap();
    folder
        .run_with(&["list", "--long", "-"], &longer)
        .done(listing.as_bytes());
    folder
        .run_with(&["list", "--long", "-"], &odd(&longer))
        .refused("-", 61);
}
