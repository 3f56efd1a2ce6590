//! Judge.

use crate::table::Table;
use ranthelo::raw;
use ranthelo_bench::families::{self, Family};
use ranthelo_bench::{engine, plain};
use ranthelo_tests::guarded::judge::checked_judge;
use ranthelo_tests::listed;
use ranthelo_tests::reference::Sheet;
use std::hint::black_box;

pub fn measure(table: &mut Table) {
    one(table, "P1", &listed::p1());
    one(table, "P2", &listed::p2());
    one(table, "P10", &listed::p10());
    let wide = families::wide().encode();
    one(table, "32 unspecified pairs of 256 choices", &wide);
    for seed in families::SEEDS {
        let sheet = families::seeded(seed, families::LARGEST);
        completed(table, &format!("16 × 16 × 16, seed {seed}"), sheet);
    }
    family(table, "complete machine", &families::COMPLETE, 1..4);
    family(table, "combination lock", &families::LOCK, 1..4);
    family(table, "partial machine", &families::PARTIAL, 2..5);
    family(table, "partial, 10 faults", &families::TEN_FAULTS, 1..4);
    made_complete(table);
    waking(table);
    quiet(table);
    formulas(table);
    for (name, sheet) in families::KEPT {
        one(table, &format!("{name}, kept"), sheet);
    }
}

/// Machines from seeds.
fn family(table: &mut Table, name: &str, family: &Family, seeds: std::ops::Range<u64>) {
    for seed in seeds {
        let sheet = families::sheet(family, seed);
        completed(table, &format!("{name} {seed}"), sheet);
    }
}

fn made_complete(table: &mut Table) {
    for (states, inputs, pairs, seed) in families::UNSPECIFIED {
        let sheet = families::unspecified(states, inputs, pairs, seed);
        let case = format!("{pairs} unspecified of {states} × {inputs}");
        completed(table, &case, sheet);
    }
    for (states, inputs) in families::FREE {
        let case = format!("all free, {states} × {inputs}");
        completed(table, &case, families::free(states, inputs, 1));
    }
    for (states, inputs, faults) in families::COMBINATIONS {
        let sheet = families::combination(states, inputs, faults, 1);
        let case = format!("combination, {states} × {inputs}, {faults} faults");
        completed(table, &case, sheet);
    }
}

/// Machines whose boards may wake in one other state, and in every state.
fn waking(table: &mut Table) {
    let few = Family {
        unspecified: 6,
        ..families::PARTIAL
    };
    let largest = Family {
        states: 16,
        faulty: 28,
        ..families::COMPLETE
    };
    for (name, family) in [("complete", largest), ("partial", few)] {
        for starts in [1, family.states - 1] {
            let sheet = families::waking(families::sheet(&family, 1), starts);
            completed(table, &format!("{name}, {starts} STARTs"), sheet);
        }
    }
}

/// Machines that ignore unspecified presses; with STARTs too.
fn quiet(table: &mut Table) {
    let few_rules = Family {
        unspecified: 150,
        ..families::COMPLETE
    };
    for (name, family) in [("complete", few_rules), ("partial", families::PARTIAL)] {
        for starts in [0, 1] {
            let sheet = families::waking(families::sheet(&family, 1), starts);
            let case = format!("quiet {name}, {starts} STARTs");
            completed(
                table,
                &case,
                Sheet {
                    quiet: true,
                    ..sheet
                },
            );
        }
    }
}

/// Formulas, whose suites are what they say.
fn formulas(table: &mut Table) {
    for (clauses, seed) in families::CLAUSES {
        let case = format!("3-SAT, {clauses} clauses, {seed}");
        both(table, &case, families::three_literals(clauses, seed));
    }
    for pigeons in 6..9 {
        let case = format!("{pigeons} pigeons");
        both(table, &case, families::pigeons(pigeons, 1));
    }
}

/// A sheet without tests: with a complete suite, and with one test dropped.
fn completed(table: &mut Table, case: &str, sheet: Sheet) {
    let sheet = families::completed(sheet).expect("a suite that fits");
    both(table, &format!("{case}, complete"), sheet);
}

/// A sheet, and the same with one test dropped.
fn both(table: &mut Table, case: &str, sheet: Sheet) {
    one(table, case, &sheet.encode());
    let dropped = families::with_one_dropped(sheet);
    one(table, "    one test dropped", &dropped.encode());
}

fn one(table: &mut Table, case: &str, sheet: &[u8]) {
    let judgement = engine::judge(sheet).expect("the sheet is accepted");
    let mut nodes = String::new();
    if table.library {
        let open_pairs = plain::read(sheet).map_or(0, |summary| summary.open_pairs);
        let verdict = checked_judge(sheet, 32, 256, open_pairs);
        assert_eq!(verdict, Ok(judgement.survivor));
        nodes = library(sheet).to_string();
    }
    let note = format!("{nodes:>8} {:>10}", judgement.nodes);
    table.measure_with_note(
        "judge",
        case,
        &note,
        || {
            black_box(library(black_box(sheet)));
        },
        || {
            black_box(engine::judge(black_box(sheet)).ok());
        },
    );
}

/// Judges with the library, and gives the number of nodes.
fn library(sheet: &[u8]) -> u32 {
    let (mut board, mut sequence) = ([0; 32], [0; 256]);
    let (mut answer, mut nodes) = ([0; 4], 0);
    raw::judge_counting(sheet, &mut board, &mut sequence, &mut answer, &mut nodes);
    black_box(answer);
    nodes
}
