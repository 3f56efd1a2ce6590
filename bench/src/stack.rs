//! How much stack the operations need: the smallest thread in which a child of this
//! program finishes.

use crate::say::say;
use crate::writing;
use ranthelo::raw;
use ranthelo_bench::families;
use ranthelo_tests::drawing::Tables;
use ranthelo_tests::reference::MOST_BYTES;
use std::env;
use std::hint::black_box;
use std::process::{Command, Stdio};
use std::thread;

/// Marks a child: it is followed by an operation and a number of bytes.
pub const ARGUMENT: &str = "stack";

const KIB: usize = 1024;
const STEP: usize = 4 * KIB;
/// No thread has less.
const LEAST: usize = 16 * KIB;
const MOST: usize = 1024 * KIB;

const OPERATIONS: &[&str] = &[
    "nothing",
    "read",
    "write",
    "run",
    "first failed",
    "tray",
    "compare",
    "judge",
    "take",
    "add test",
    "make",
    "begin",
    "next",
    "sound",
    "change",
];

pub fn print() {
    say!("\nsmallest stack of a thread that does");
    for operation in OPERATIONS {
        match smallest(operation) {
            Some(LEAST) => say!("{operation:<13} at most {} KiB", LEAST / KIB),
            Some(bytes) => say!("{operation:<13} {} KiB", bytes / KIB),
            None => say!("{operation:<13} over {} KiB", MOST / KIB),
        }
    }
}

fn smallest(operation: &str) -> Option<usize> {
    let (mut low, mut high) = (LEAST / STEP - 1, MOST / STEP);
    if !suffices(operation, high * STEP) {
        return None;
    }
    while low + 1 < high {
        let middle = (low + high) / 2;
        if suffices(operation, middle * STEP) {
            high = middle;
        } else {
            low = middle;
        }
    }
    Some(high * STEP)
}

/// Whether a child can do the operation with such a stack.
fn suffices(operation: &str, bytes: usize) -> bool {
    let program = env::current_exe().expect("the path of this program");
    Command::new(program)
        .args([ARGUMENT, operation, &bytes.to_string()])
        .stdout(Stdio::null())
        .stderr(Stdio::null())
        .status()
        .is_ok_and(|status| status.success())
}

/// Does one operation in a thread with so many bytes of stack.
pub fn try_one(operation: &str, bytes: &str) {
    let bytes = bytes.parse().expect("a number of bytes");
    let operation = operation.to_string();
    let sheet = families::filled(families::sheet(&families::FULL, 1), MOST_BYTES, 1).encode();
    let deep = families::completed(families::sheet(&families::DEEP, 1)).expect("a suite that fits");
    let deep = deep.encode();
    let thread = thread::Builder::new()
        .stack_size(bytes)
        .spawn(move || perform(&operation, &sheet, &deep))
        .expect("a thread starts");
    thread.join().expect("the thread finishes");
}

fn perform(operation: &str, sheet: &[u8], deep: &[u8]) {
    match operation {
        "read" => {
            let mut answer = [0; 9];
            raw::read(black_box(sheet), &mut answer);
            black_box(answer);
        }
        "write" => {
            let tables = Tables::of_commands(sheet);
            writing::with_library(&tables, &mut vec![0; MOST_BYTES]);
        }
        "run" => {
            let mut answer = [0; 4];
            let mut buffer = [0; 16];
            raw::run(sheet, &[1; 32], &[3; 16], &mut buffer, &mut answer);
            black_box(answer);
        }
        "first failed" => {
            let mut answer = [0; 7];
            raw::first_failed(sheet, &[0; 32], &mut answer);
            black_box(answer);
        }
        "tray" => {
            let mut answer = [0; 2];
            raw::tray(sheet, 2, &[0; 64], &mut [0; 2], &mut answer);
            black_box(answer);
        }
        "compare" => {
            let mut answer = [0; 4];
            let mut buffer = [0; 256];
            raw::compare(sheet, &[0; 32], &mut buffer, &mut answer);
            black_box(answer);
        }
        "judge" => {
            let (mut board, mut sequence) = ([0; 32], [0; 256]);
            let mut answer = [0; 4];
            raw::judge(deep, &mut board, &mut sequence, &mut answer);
            black_box(answer);
        }
        "take" => {
            let (mut board, mut sequence) = ([0; 32], [0; 256]);
            let mut answer = [0; 5];
            raw::take(deep, 0, &[], &mut board, &mut sequence, &mut answer);
            black_box(answer);
        }
        "add test" => {
            let mut answer = [0; 3];
            raw::add_test(deep, &[], &mut vec![0; MOST_BYTES], &mut answer);
            black_box(answer);
        }
        "make" => {
            let mut answer = [0; 4];
            raw::make(deep, &mut vec![0; MOST_BYTES], &mut answer);
            black_box(answer);
        }
        "begin" => raw::station_begin(deep, &mut [0; 4], &mut [0; 2]),
        "next" => raw::station_next(sheet, &mut [0; 4], &mut [0; 5]),
        "sound" => raw::station_sound(sheet, &mut [1, 0, 1, 0], 0, &mut [0; 5]),
        "change" => raw::station_change(sheet, deep, &[0; 4], &mut [0; 2]),
        _ => {
            black_box(deep);
        }
    }
}
