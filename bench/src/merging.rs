//! Merge.

use crate::table::Table;
use ranthelo::raw;
use ranthelo_bench::families;
use ranthelo_tests::guarded::merging::checked_merge;
use ranthelo_tests::reference::{Sheet, MOST_BYTES};
use ranthelo_tests::{listed, merging};
use std::hint::black_box;

pub fn measure(table: &mut Table) {
    one(table, "P1 with itself", &listed::p1(), &listed::p1());
    let machine = families::sheet(&families::FULL, 1);
    let half = families::filled(machine.clone(), MOST_BYTES / 2, 1);
    let half = divided(table, "256 faults, 8,192 bytes in all", &half);
    let full = families::filled(machine, MOST_BYTES, 1);
    let full = divided(table, "256 faults, 16,384 bytes in all", &full);
    table.keep_growth("merge", half, full);
}

/// Every second fault and the first half of the tests in one sheet, the rest in the other.
fn divided(table: &mut Table, case: &str, sheet: &Sheet) -> (f64, f64) {
    let (mut first, mut second) = (sheet.clone(), sheet.clone());
    let mut even = false;
    first.faults.retain(|_| {
        even = !even;
        even
    });
    second.faults = &sheet.faults - &first.faults;
    second.tests = first.tests.split_off(sheet.tests.len() / 2);
    one(table, case, &first.encode(), &second.encode())
}

fn one(table: &mut Table, case: &str, first: &[u8], second: &[u8]) -> (f64, f64) {
    let expected = merging::merge(first, second, MOST_BYTES);
    assert_eq!(checked_merge(first, second, MOST_BYTES), expected);
    let mut buffer = vec![0; MOST_BYTES];
    table.measure(
        "merge",
        case,
        || with_library(first, second, &mut buffer),
        || in_plain_rust(first, second),
    )
}

fn with_library(first: &[u8], second: &[u8], buffer: &mut [u8]) {
    let mut answer = [0; 4];
    raw::merge(black_box(first), black_box(second), buffer, &mut answer);
    black_box(answer);
}

fn in_plain_rust(first: &[u8], second: &[u8]) {
    let merged = merging::merge(black_box(first), black_box(second), MOST_BYTES);
    black_box(merged.ok());
}
