//! Write.

use crate::table::Table;
use ranthelo::raw;
use ranthelo_bench::{families, plain};
use ranthelo_tests::drawing::Tables;
use ranthelo_tests::guarded::writing::checked_write;
use ranthelo_tests::listed;
use ranthelo_tests::reference::MOST_BYTES;
use std::hint::black_box;

pub fn measure(table: &mut Table) {
    one(table, "P1", &Tables::of_commands(&listed::p1()));
    let machine = families::sheet(&families::FULL, 1);
    let half = families::filled(machine.clone(), MOST_BYTES / 2, 1);
    let half = one(table, "8,192 bytes", &Tables::of(&half));
    let full = families::filled(machine, MOST_BYTES, 1);
    let full = one(table, "full sheet, 16,384 bytes", &Tables::of(&full));
    table.keep_growth("write", half, full);
}

fn one(table: &mut Table, case: &str, tables: &Tables) -> (f64, f64) {
    let sheet = tables.spell();
    assert_eq!(checked_write(tables, MOST_BYTES), Ok(sheet.clone()));
    let (mut buffer, mut other) = (vec![0; MOST_BYTES], vec![0; MOST_BYTES]);
    let times = table.measure(
        "write",
        case,
        || with_library(tables, &mut buffer),
        || in_plain_rust(tables, &mut other),
    );
    assert_eq!(buffer[..sheet.len()], sheet);
    assert_eq!(other, buffer);
    times
}

pub fn with_library(tables: &Tables, buffer: &mut [u8]) {
    let mut answer = [0; 3];
    let tables = black_box(tables);
    let lent = raw::Tables {
        size: tables.size,
        quiet: tables.quiet,
        rules: &tables.rules,
        faults: &tables.faults,
        starts: &tables.starts,
        lengths: &tables.lengths,
        presses: &tables.presses,
    };
    raw::write(lent, buffer, &mut answer);
    black_box(answer);
}

/// Spells the sheet, reads it, and copies it to the buffer.
fn in_plain_rust(tables: &Tables, buffer: &mut [u8]) {
    let sheet = black_box(tables).spell();
    if plain::read(&sheet).is_ok() {
        buffer[..sheet.len()].copy_from_slice(&sheet);
    }
    black_box(buffer);
}
