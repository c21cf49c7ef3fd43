//! Packs the paper's drawn graph with the library and shows the order list and
//! the bytes of the image, a section a line: its count, then its contents.

use glouds::make::{starts, DRAWN};
use glouds::plain;

fn main() {
    let mut order = [0u16; 8];
    let mut work = [0u32; 24];
    let mut image = [0u8; 105];
    match glouds::pack(&DRAWN, &mut order, &mut work, &mut image) {
        Ok(size) => {
            let image = &image[..size];
            println!("table {DRAWN:?}");
            println!("order {order:?}");
            println!("image of {size} bytes");
            for (section, ends) in starts(image).windows(2).enumerate() {
                let (count, contents) = image[ends[0]..ends[1]].split_at(4);
                println!("section {}: {count:?} {contents:?}", section + 1);
            }
            println!(
                "the independent checker: {}, and 0 is proper",
                plain::check(image)
            );
        }
        Err(refusal) => println!("refused {refusal}"),
    }
}
