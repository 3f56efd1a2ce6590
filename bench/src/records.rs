//! A lock's own record: the record of a complete list, and the same with one run more that ends in a wrong sound, which
//! no board gives; beside judging the list. And records of a million commands.

use crate::say::say;
use ranthelo::raw;
use ranthelo_bench::families;
use ranthelo_bench::timing::{self, shown};
use ranthelo_tests::enumeration::Machine;
use ranthelo_tests::generator::{self, Random};
use ranthelo_tests::records::record_of;
use ranthelo_tests::reference::{self, Sheet};
use std::hint::black_box;

pub fn print() {
    say!("\nrecords, beside judging");
    print_row(["case", "given", "not given", "judging", "ratio"].map(str::to_string));
    for seed in 1..3 {
        one(
            &format!("complete machine {seed}"),
            families::sheet(&families::COMPLETE, seed),
        );
        one(
            &format!("combination lock {seed}"),
            families::sheet(&families::LOCK, seed),
        );
        one(
            &format!("partial machine {seed}"),
            families::sheet(&families::PARTIAL, seed),
        );
        one(
            &format!("partial, 10 faults {seed}"),
            families::sheet(&families::TEN_FAULTS, seed),
        );
    }
    for (states, inputs) in families::FREE {
        one(
            &format!("all free, {states} × {inputs}"),
            families::free(states, inputs, 1),
        );
    }
    one("3-SAT, 20 clauses", families::three_literals(20, 1));
    one("pigeons, 5", families::pigeons(5, 1));
    for (name, bytes) in families::KEPT {
        let reading = reference::read(bytes).expect("an accepted sheet");
        one(&format!("{name}, kept"), reading.sheet);
    }
    million();
}

fn print_row([case, given, not_given, judging, ratio]: [String; 5]) {
    say!("{case:<44} {given:>10} {not_given:>10} {judging:>10} {ratio:>6}");
}

/// The choices of the board that takes each RULE.
fn specified(machine: &Machine) -> Vec<u8> {
    vec![0; machine.counts().len()]
}

fn one(case: &str, sheet: Sheet) {
    let Some(sheet) = families::completed(sheet) else {
        return;
    };
    let machine = Machine::new(&sheet);
    let bytes = sheet.encode();
    let log = record_of(&machine, &specified(&machine), &sheet.tests);
    let other = generator::walk(&mut Random::new(7), &sheet, 20);
    let mut wrong = [
        &log[..],
        &record_of(&machine, &specified(&machine), &[other]),
    ]
    .concat();
    let last = wrong.last_mut().expect("a walk");
    *last = (*last + 1) % sheet.sounds;
    let given = timing::alone(|| record(&bytes, &log));
    let (not_given, judging) = timing::compare(|| record(&bytes, &wrong), || judge(&bytes));
    let ratio = format!("{:.2}", not_given / judging);
    print_row([
        case.to_string(),
        shown(given),
        shown(not_given),
        shown(judging),
        ratio,
    ]);
}

/// A million commands of one board, and with the last sound wrong.
fn million() {
    let sheet = families::sheet(&families::COMPLETE, 1);
    let machine = Machine::new(&sheet);
    let bytes = sheet.encode();
    let tests: Vec<_> = (0..100)
        .map(|seed| generator::walk(&mut Random::new(seed), &sheet, 99))
        .collect();
    let log = record_of(&machine, &specified(&machine), &tests).repeat(100);
    let mut wrong = log.clone();
    let last = wrong.last_mut().expect("a record");
    *last = (*last + 1) % sheet.sounds;
    let given = shown(timing::alone(|| record(&bytes, &log)));
    let not_given = shown(timing::alone(|| record(&bytes, &wrong)));
    print_row([
        "a million commands".to_string(),
        given,
        not_given,
        String::new(),
        String::new(),
    ]);
}

fn record(sheet: &[u8], log: &[u8]) {
    let mut answer = [0; 5];
    raw::record(black_box(sheet), black_box(log), &mut answer);
    black_box(answer);
}

fn judge(sheet: &[u8]) {
    let (mut board, mut sequence, mut answer) = ([0; 32], [0; 256], [0; 4]);
    raw::judge(black_box(sheet), &mut board, &mut sequence, &mut answer);
    black_box(answer);
}
