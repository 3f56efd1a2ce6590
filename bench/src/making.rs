//! Make, from sheets without tests: beside judging the made list once, and beside one judgement after the other in
//! plain Rust.

use crate::say::say;
use ranthelo::raw;
use ranthelo_bench::families::{self, Family};
use ranthelo_bench::timing::{self, shown};
use ranthelo_tests::guarded::making::checked_make;
use ranthelo_tests::listed;
use ranthelo_tests::reference::{self, Sheet, MOST_BYTES};
use std::hint::black_box;
use std::ops::Range;
use std::time::Instant;

/// Making takes at most so many times as long as judging the made list.
const BOUND: f64 = 10.0;

/// The cases whose making takes longer than that.
struct Rows {
    over: Vec<String>,
}

pub fn print() {
    say!("\nlists made from nothing");
    let columns = ["case", "tests", "making", "judging", "ratio", "plain Rust"];
    print_row(columns.map(str::to_string));
    let mut rows = Rows { over: vec![] };
    rows.all();
    let over = rows.over;
    say!("{} over {BOUND}: {}", over.len(), over.join("; "));
}

fn print_row([case, tests, making, judging, ratio, plain]: [String; 6]) {
    say!("{case:<44} {tests:>5} {making:>10} {judging:>10} {ratio:>6} {plain:>11}");
}

impl Rows {
    fn all(&mut self) {
        for (name, bytes) in [
            ("P3", listed::p3()),
            ("P9", listed::p9()),
            ("P1-start", listed::p1_start()),
        ] {
            let reading = reference::read(&bytes).expect("an accepted sheet");
            self.one(name, families::without_tests(reading.sheet));
        }
        self.family("shape of 000", &families::PUBLISHED, 1..9);
        for seed in families::SEEDS {
            let sheet = families::seeded(seed, families::LARGEST);
            self.one(&format!("16 × 16 × 16, seed {seed}"), sheet);
        }
        self.family("complete machine", &families::COMPLETE, 1..4);
        self.family("combination lock", &families::LOCK, 1..4);
        self.family("partial machine", &families::PARTIAL, 1..5);
        self.family("partial, 10 faults", &families::TEN_FAULTS, 1..5);
        self.family("256 faults", &families::FULL, 1..5);
        self.family("few sounds", &families::QUIET, 1..3);
        self.family("no sounds", &families::SILENT, 1..2);
        self.family("deep", &families::DEEP, 1..4);
        self.sized();
        self.waking_and_quiet();
        for (name, bytes) in families::KEPT {
            let reading = reference::read(bytes).expect("an accepted sheet");
            let sheet = families::without_tests(reading.sheet);
            self.one(&format!("{name}, kept"), sheet);
        }
    }

    /// Machines from seeds.
    fn family(&mut self, name: &str, family: &Family, seeds: Range<u64>) {
        for seed in seeds {
            self.one(&format!("{name} {seed}"), families::sheet(family, seed));
        }
    }

    fn sized(&mut self) {
        for (states, inputs, pairs, seed) in families::UNSPECIFIED {
            let sheet = families::unspecified(states, inputs, pairs, seed);
            let case = format!("{pairs} unspecified of {states} × {inputs}");
            self.one(&case, sheet);
        }
        for (states, inputs) in families::FREE {
            let case = format!("all free, {states} × {inputs}");
            self.one(&case, families::free(states, inputs, 1));
        }
        for (states, inputs, faults) in families::COMBINATIONS {
            let sheet = families::combination(states, inputs, faults, 1);
            let case = format!("combination, {states} × {inputs}, {faults} faults");
            self.one(&case, sheet);
        }
    }

    fn waking_and_quiet(&mut self) {
        for (name, family) in [
            ("complete", families::COMPLETE),
            ("partial", families::PARTIAL),
        ] {
            let fewer = Family {
                unspecified: family.unspecified.saturating_sub(2),
                ..family
            };
            let sheet = families::waking(families::sheet(&fewer, 1), 1);
            self.one(&format!("{name}, 1 START"), sheet.clone());
            let quiet = Sheet {
                quiet: true,
                ..sheet
            };
            self.one(&format!("quiet {name}, 1 START"), quiet);
        }
    }

    /// A sheet without tests: how many are made, and how long it takes.
    fn one(&mut self, case: &str, sheet: Sheet) {
        let bytes = sheet.encode();
        let start = Instant::now();
        let completed = families::completed(sheet);
        let plain = shown(start.elapsed().as_nanos() as f64);
        let made = checked_make(&bytes, MOST_BYTES);
        let Some(completed) = completed else {
            assert_eq!(made.map_err(|refusal| refusal.number), Err(18));
            let making = shown(timing::alone(|| make(&bytes)));
            let cells = [case, "full", &making, "", "", &plain];
            return print_row(cells.map(str::to_string));
        };
        let made = made.expect("room for the tests");
        assert_eq!(made.sheet, completed.encode());
        let (making, judging) = timing::compare(|| make(&bytes), || judge(&made.sheet));
        let ratio = making / judging;
        if ratio > BOUND {
            self.over.push(format!("{case} ({ratio:.1})"));
        }
        print_row([
            case.to_string(),
            made.appended.to_string(),
            shown(making),
            shown(judging),
            format!("{ratio:.2}"),
            plain,
        ]);
    }
}

fn make(sheet: &[u8]) {
    let (mut buffer, mut answer) = ([0; MOST_BYTES], [0; 4]);
    raw::make(black_box(sheet), &mut buffer, &mut answer);
    black_box(answer);
}

fn judge(sheet: &[u8]) {
    let (mut board, mut sequence, mut answer) = ([0; 32], [0; 256], [0; 4]);
    raw::judge(black_box(sheet), &mut board, &mut sequence, &mut answer);
    black_box(answer);
}
