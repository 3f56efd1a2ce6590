//! Renumber.

use crate::table::Table;
use ranthelo::raw;
use ranthelo_bench::{families, plain};
use ranthelo_tests::guarded::writing::checked_renumber;
use ranthelo_tests::listed;
use ranthelo_tests::numbering::renamed;
use ranthelo_tests::reference::{read, Sheet, MOST_BYTES};
use std::hint::black_box;

pub fn measure(table: &mut Table) {
    one(table, "P9", &read(&listed::p9()).expect("a sheet").sheet);
    let machine = families::seeded(1, families::LARGEST);
    one(table, "16 × 16 × 16, seed 1", &machine);
    let full = families::filled(machine, MOST_BYTES, 1);
    one(table, "full sheet, 16,384 bytes", &full);
}

/// The sheet with its states but 0 named downwards.
fn one(table: &mut Table, case: &str, sheet: &Sheet) {
    let downwards: Vec<u8> = (0..sheet.states)
        .map(|s| (sheet.states - s) % sheet.states)
        .collect();
    let bytes = renamed(sheet, &downwards).encode();
    let (mut buffer, mut other) = (vec![0; bytes.len()], vec![0; bytes.len()]);
    plain::renumber(&bytes, &mut other).expect("an accepted sheet");
    assert_eq!(checked_renumber(&bytes, bytes.len()), Ok(other.clone()));
    table.measure(
        "renumber",
        case,
        || {
            let mut answer = [0; 3];
            raw::renumber(black_box(&bytes), &mut buffer, &mut answer);
            black_box(answer);
        },
        || {
            black_box(plain::renumber(black_box(&bytes), &mut other).ok());
        },
    );
}
