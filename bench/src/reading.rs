//! Read.

use crate::table::Table;
use ranthelo::raw;
use ranthelo_bench::{families, plain};
use ranthelo_tests::guarded::reading::checked_read;
use ranthelo_tests::reference::MOST_BYTES;
use ranthelo_tests::{generator, listed};
use std::hint::black_box;

pub fn measure(table: &mut Table) {
    let bare = families::seeded(1, [16, 16, 1]);
    let full = families::filled(families::sheet(&families::FULL, 1), MOST_BYTES, 1);
    one(table, "P1", &listed::p1());
    one(table, "256 RULEs", &bare.encode());
    one(table, "full sheet, 16,384 bytes", &full.encode());
    let half = generator::of_length(MOST_BYTES / 2);
    let half = one(table, "one RULE and PRESSes, 8,192 bytes", &half);
    let whole = generator::of_length(MOST_BYTES);
    let whole = one(table, "one RULE and PRESSes, 16,384 bytes", &whole);
    table.keep_growth("read", half, whole);
}

fn one(table: &mut Table, case: &str, sheet: &[u8]) -> (f64, f64) {
    let expected = checked_read(sheet);
    assert_eq!(plain::read(sheet), expected);
    table.measure(
        "read",
        case,
        || with_library(sheet),
        || in_plain_rust(sheet),
    )
}

pub fn with_library(sheet: &[u8]) {
    let mut answer = [0; 9];
    raw::read(black_box(sheet), &mut answer);
    black_box(answer);
}

pub fn in_plain_rust(sheet: &[u8]) {
    black_box(plain::read(black_box(sheet)).ok());
}
