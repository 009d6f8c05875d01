//! The bytes of a value of each type, beside the original's.

use fixed_decimal::{CompactDecimal, Decimal, FixedInteger, ScientificDecimal, UnsignedDecimal};
use std::mem::size_of;

extern "C" {
    fn decimal_size(place: u8) -> usize;
}

const ORIGINAL: [(&str, usize); 5] = [
    ("UnsignedDecimal", size_of::<UnsignedDecimal>()),
    ("Decimal", size_of::<Decimal>()),
    ("FixedInteger", size_of::<FixedInteger>()),
    ("ScientificDecimal", size_of::<ScientificDecimal>()),
    ("CompactDecimal", size_of::<CompactDecimal>()),
];

pub fn print() {
    println!("| bytes of a value | here | original |");
    println!("|---|---|---|");
    for (place, (name, original)) in (0..).zip(ORIGINAL) {
        // It takes a number, and gives one.
        let here = unsafe { decimal_size(place) };
        println!("| {name} | {here} | {original} |");
    }
}
