//! Run, first failed test, trays of boards and compare.

use crate::table::Table;
use ranthelo::raw;
use ranthelo_bench::{families, plain};
use ranthelo_tests::enumeration::{Machine, Ran};
use ranthelo_tests::generator::{self, Random};
use ranthelo_tests::guarded::mutation;
use ranthelo_tests::listed;
use ranthelo_tests::reference::{Sheet, MOST_BYTES};
use std::hint::black_box;

pub fn measure(table: &mut Table) {
    measure_run(table);
    measure_first_failed(table);
    measure_trays(table);
    measure_compare(table);
}

/// A board of the sheet, made from a seed.
fn board(sheet: &Sheet, seed: u64) -> Vec<u8> {
    let counts = Machine::new(sheet).counts();
    generator::board(&mut Random::new(seed), &counts)
}

fn measure_run(table: &mut Table) {
    run(table, "P7: three inputs", &listed::p1(), &[1], &[0, 1, 0]);
    let sheet = families::seeded(families::SEEDS.start, families::LARGEST);
    let (bytes, board) = (sheet.encode(), board(&sheet, 2));
    let mut random = Random::new(2);
    let inputs: Vec<u8> = (0..100_000).map(|_| random.below(16) as u8).collect();
    run(table, "256 inputs", &bytes, &board, &inputs[..256]);
    let half = run(table, "50,000 inputs", &bytes, &board, &inputs[..50_000]);
    let whole = run(table, "100,000 inputs", &bytes, &board, &inputs);
    table.keep_growth("run", half, whole);
}

fn run(table: &mut Table, case: &str, sheet: &[u8], board: &[u8], inputs: &[u8]) -> (f64, f64) {
    let mut buffer = vec![0; inputs.len()];
    let mut other = buffer.clone();
    let expected = mutation::checked_run(sheet, board, inputs, inputs.len());
    let used = plain::run(sheet, board, inputs, &mut other);
    let sounds = other.clone();
    assert_eq!(used.map(|used| Ran { sounds, used }), expected);
    table.measure(
        "run",
        case,
        || {
            let mut answer = [0; 4];
            raw::run(black_box(sheet), board, inputs, &mut buffer, &mut answer);
            black_box(answer);
        },
        || {
            black_box(plain::run(black_box(sheet), board, inputs, &mut other).ok());
        },
    )
}

fn measure_first_failed(table: &mut Table) {
    first_failed(table, "P8", &listed::p2(), &[1]);
    let sheet = families::sheet(&families::SILENT, 3);
    let board = board(&sheet, 3);
    let start = sheet.encode().len();
    let middle = start + (MOST_BYTES - start) / 2;
    let half = families::filled(sheet.clone(), middle, 3).encode();
    let half = first_failed(table, "half the tests, none fails", &half, &board);
    let whole = families::filled(sheet, MOST_BYTES, 3).encode();
    let whole = first_failed(table, "16,384 bytes, none fails", &whole, &board);
    table.keep_growth("first failed", half, whole);
}

fn first_failed(table: &mut Table, case: &str, sheet: &[u8], board: &[u8]) -> (f64, f64) {
    let expected = mutation::checked_first_failed(sheet, board);
    assert_eq!(plain::first_failed(sheet, board), expected);
    table.measure(
        "first failed",
        case,
        || {
            let mut answer = [0; 7];
            raw::first_failed(black_box(sheet), board, &mut answer);
            black_box(answer);
        },
        || {
            black_box(plain::first_failed(black_box(sheet), board).ok());
        },
    )
}

/// Trays of boards, beside the boards taken singly.
fn measure_trays(table: &mut Table) {
    let silent = families::filled(families::sheet(&families::SILENT, 3), MOST_BYTES, 3);
    let seeded = families::seeded(families::SEEDS.start, families::LARGEST);
    let seeded = families::filled(seeded, MOST_BYTES / 2, 3);
    for (name, sheet) in [("none fails", silent), ("most fail soon", seeded)] {
        let (bytes, counts) = (sheet.encode(), Machine::new(&sheet).counts());
        let mut random = Random::new(11);
        let boards: Vec<Vec<u8>> = (0..4_000)
            .map(|_| generator::board(&mut random, &counts))
            .collect();
        let forty = &boards[..40];
        tray(table, &format!("40 boards, {name}"), &bytes, forty);
        singly(table, &format!("40 boards singly, {name}"), &bytes, forty);
        tray(table, &format!("4,000 boards, {name}"), &bytes, &boards);
    }
}

fn tray(table: &mut Table, case: &str, sheet: &[u8], boards: &[Vec<u8>]) {
    let (number, choices) = (boards.len(), boards.concat());
    let mut results = vec![0; number];
    let mut other = results.clone();
    let expected = mutation::checked_tray(sheet, number, &choices, number);
    let tried = plain::tray(sheet, number, &choices, &mut other);
    assert_eq!(tried.map(|()| other.clone()), expected);
    table.measure(
        "tray",
        case,
        || {
            let mut answer = [0; 2];
            raw::tray(
                black_box(sheet),
                number,
                &choices,
                &mut results,
                &mut answer,
            );
            black_box(answer);
        },
        || {
            black_box(plain::tray(black_box(sheet), number, &choices, &mut other).ok());
        },
    );
}

fn singly(table: &mut Table, case: &str, sheet: &[u8], boards: &[Vec<u8>]) {
    table.measure(
        "tray",
        case,
        || {
            for board in boards {
                let mut answer = [0; 7];
                raw::first_failed(black_box(sheet), board, &mut answer);
                black_box(answer);
            }
        },
        || {
            for board in boards {
                black_box(plain::first_failed(black_box(sheet), board).ok());
            }
        },
    );
}

fn measure_compare(table: &mut Table) {
    compare(table, "P1, board 1", &listed::p1(), &[1]);
    let mut any = |case, sheet: Sheet| compare(table, case, &sheet.encode(), &board(&sheet, 4));
    let family = |family| families::sheet(family, 4);
    any("16 × 16, one output, conforms", family(&families::SILENT));
    any("16 × 16, few outputs", family(&families::QUIET));
    let seeded = families::seeded(families::SEEDS.start, families::LARGEST);
    any("16 × 16, any outputs", seeded);
}

fn compare(table: &mut Table, case: &str, sheet: &[u8], board: &[u8]) {
    let mut buffer = [0; 256];
    let mut other = buffer;
    let expected = mutation::checked_compare(sheet, board, 256);
    let compared = plain::compare(sheet, board, &mut other);
    let sequence = compared.map(|length| length.map(|length| other[..length].to_vec()));
    assert_eq!(sequence, expected);
    table.measure(
        "compare",
        case,
        || {
            let mut answer = [0; 4];
            raw::compare(black_box(sheet), board, &mut buffer, &mut answer);
            black_box(answer);
        },
        || {
            black_box(plain::compare(black_box(sheet), board, &mut other).ok());
        },
    );
}
