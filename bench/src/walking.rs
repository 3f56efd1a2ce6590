//! Take and tests added: takes from places spread over a sheet's boards, beside plain Rust and one judgement; walks of
//! many boards.

use crate::say::say;
use crate::table::Table;
use ranthelo::raw;
use ranthelo_bench::families;
use ranthelo_bench::plain;
use ranthelo_bench::timing::{self, shown};
use ranthelo_tests::enumeration::Machine;
use ranthelo_tests::generator::{self, Random};
use ranthelo_tests::guarded::walking::checked_add_test;
use ranthelo_tests::listed;
use ranthelo_tests::reference::{self, Sheet, MOST_BYTES};
use std::hint::black_box;
use std::time::Instant;

/// From how many boards taken one after another, and from how many boards at random, the next is taken.
const CONSECUTIVE: usize = 200;
const SPREAD: usize = 60;
/// After so many boards that fail plain Rust gives up.
const MOST_FAILED: usize = 100_000;
/// The boards of a long walk.
const LONG: usize = 10_000;

pub fn measure(table: &mut Table) {
    let full = families::filled(families::sheet(&families::FULL, 1), MOST_BYTES - 600, 1).encode();
    for (case, sheet, length) in [
        ("P4, three presses", listed::p4(), 3),
        ("15,784 bytes, 256 presses", full, 256),
    ] {
        let reading = reference::read(&sheet).expect("an accepted sheet");
        let presses = generator::walk(&mut Random::new(1), &reading.sheet, length);
        let (mut buffer, mut other) = (vec![0; MOST_BYTES], vec![0; MOST_BYTES]);
        let longer = checked_add_test(&sheet, &presses, MOST_BYTES);
        let added = plain::add_test(&sheet, &presses, &mut other);
        assert_eq!(added.map(|length| other[..length].to_vec()), longer);
        table.measure(
            "add test",
            case,
            || {
                let mut answer = [0; 3];
                raw::add_test(black_box(&sheet), &presses, &mut buffer, &mut answer);
                black_box(answer);
            },
            || {
                black_box(plain::add_test(black_box(&sheet), &presses, &mut other).ok());
            },
        );
    }
}

pub fn print() {
    say!("\ntakes from places spread over a sheet's boards");
    print_row(
        [
            "case", "takes", "typical", "worst", "plain", "worst", "judge",
        ]
        .map(str::to_string),
    );
    one("P1", &listed::p1());
    one("P10", &listed::p10());
    one(
        "32 unspecified pairs of 256 choices",
        &families::wide().encode(),
    );
    family("complete machine", &families::COMPLETE);
    family("partial machine", &families::PARTIAL);
    family("combination lock", &families::LOCK);
    for (states, inputs) in families::FREE {
        let case = format!("all free, {states} × {inputs}");
        completed(&case, families::free(states, inputs, 1));
    }
    for (name, sheet) in families::KEPT {
        one(&format!("{name}, kept"), sheet);
    }
    say!("\nwalks of {LONG} boards");
    long(
        "32 unspecified pairs of 256 choices",
        &families::wide().encode(),
    );
    let sheet = families::sheet(&families::PARTIAL, 2);
    if let Some(sheet) = families::completed(sheet) {
        long("partial machine 2, complete", &sheet.encode());
    }
    long(
        "complete machine 1, no tests",
        &families::sheet(&families::COMPLETE, 1).encode(),
    );
}

fn print_row([case, takes, typical, worst, plain, plain_worst, judge]: [String; 7]) {
    say!("{case:<44} {takes:>5} {typical:>9} {worst:>9} {plain:>9} {plain_worst:>9} {judge:>9}");
}

fn family(name: &str, family: &families::Family) {
    for seed in 1..4 {
        completed(&format!("{name} {seed}"), families::sheet(family, seed));
    }
}

/// A sheet without tests, and with a complete suite.
fn completed(case: &str, sheet: Sheet) {
    one(&format!("{case}, no tests"), &sheet.encode());
    if let Some(sheet) = families::completed(sheet) {
        one(&format!("{case}, complete"), &sheet.encode());
    }
}

/// The next board after a place by the library, none at the end.
fn take(sheet: &[u8], last: Option<&[u8]>, open_pairs: usize) -> Option<Vec<u8>> {
    let (mut board, mut sequence) = ([0; 32], [0; 256]);
    let mut answer = [0; 5];
    let place = u8::from(last.is_some());
    raw::take(
        black_box(sheet),
        place,
        last.unwrap_or(&[]),
        &mut board,
        &mut sequence,
        &mut answer,
    );
    assert_eq!(answer[0], 0);
    black_box(sequence);
    (answer[2] == 1).then(|| board[..open_pairs].to_vec())
}

fn nanoseconds<T>(f: impl FnOnce() -> T) -> (T, f64) {
    let start = Instant::now();
    let value = f();
    (value, start.elapsed().as_nanos() as f64)
}

/// The middle one of some times, and the greatest.
fn typical_and_worst(mut times: Vec<f64>) -> (String, String) {
    times.sort_by(f64::total_cmp);
    let (middle, worst) = (times[times.len() / 2], times[times.len() - 1]);
    (shown(middle), shown(worst))
}

fn one(case: &str, bytes: &[u8]) {
    let sheet = reference::read(bytes).expect("an accepted sheet").sheet;
    let counts = Machine::new(&sheet).counts();
    let mut random = Random::new(1);
    let spread: Vec<_> = (0..SPREAD)
        .map(|_| generator::board(&mut random, &counts))
        .collect();
    let (mut times, mut plain_times, mut gave_up) = (vec![], vec![], 0);
    let mut measure = |last: Option<&[u8]>| {
        let (next, time) = nanoseconds(|| take(bytes, last, counts.len()));
        let (_, again) = nanoseconds(|| take(bytes, last, counts.len()));
        times.push(time.min(again));
        let (plain, time) = nanoseconds(|| plain::take(black_box(bytes), last, MOST_FAILED));
        match plain {
            Some(plain) => {
                assert_eq!(plain.map(|(board, _)| board), next, "{case}: {last:?}");
                plain_times.push(time);
            }
            None => gave_up += 1,
        }
        next
    };
    let mut last = None;
    for _ in 0..CONSECUTIVE {
        last = measure(last.as_deref());
        if last.is_none() {
            break;
        }
    }
    for board in &spread {
        measure(Some(board));
    }
    let takes = times.len();
    let (typical, worst) = typical_and_worst(times);
    let (plain, mut plain_worst) = match plain_times.is_empty() {
        true => (String::new(), String::new()),
        false => typical_and_worst(plain_times),
    };
    if gave_up > 0 {
        plain_worst = format!("{gave_up} over");
    }
    let judge = shown(timing::alone(|| judge(bytes)));
    print_row([
        case.to_string(),
        takes.to_string(),
        typical,
        worst,
        plain,
        plain_worst,
        judge,
    ]);
}

fn judge(sheet: &[u8]) {
    let (mut board, mut sequence) = ([0; 32], [0; 256]);
    let mut answer = [0; 4];
    raw::judge(black_box(sheet), &mut board, &mut sequence, &mut answer);
    black_box(answer);
}

/// A walk from the start.
fn long(case: &str, bytes: &[u8]) {
    let open_pairs = plain::read(bytes).map_or(0, |summary| summary.open_pairs);
    let (taken, time) = nanoseconds(|| {
        let (mut last, mut taken) = (None, 0);
        while taken < LONG {
            last = take(bytes, last.as_deref(), open_pairs);
            if last.is_none() {
                break;
            }
            taken += 1;
        }
        taken
    });
    let each = shown(time / (taken.max(1) as f64));
    say!(
        "{case:<44} {taken:>6} boards {:>10} {each:>10} each",
        shown(time)
    );
}
