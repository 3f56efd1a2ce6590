//! `make`: the new tests alone, a text that stays, at most so many.

mod common;

use common::{examples, file, gives, output, output_on, status, text};
use std::fs;

const TOLD: &str = "ranthelo: P9.txt: 2 tests appended\n";

#[test]
fn new_tests_alone() {
    gives(
        &["make", "--tests", "P9.txt"],
        0,
        "TEST 1 0 1 0 0 1 0\nTEST 1 0 0\n",
        TOLD,
    );
    gives(
        &["make", "--tests", "P10.txt"],
        0,
        "",
        "ranthelo: P10.txt: 0 tests appended\n",
    );
    let to = file("tests.txt", b"old");
    gives(&["make", "--tests", "-o", &to, "P9.txt"], 0, "", TOLD);
    let source =
        fs::read_to_string(examples().join("P9.txt")).unwrap() + &fs::read_to_string(to).unwrap();
    assert_eq!(
        output_on(&["judge", "-"], source.as_bytes()).stdout,
        b"complete\n"
    );
}

/// The text is written as it came, with lines appended.
#[test]
fn texts_stay() {
    let source = "# mine\r\nSIZE 1 1 2\r\n\r\nRULE 0 0 0 0 # rule\r\nFAULT 0 0 1 0\r\n# the end";
    let name = file("stays.txt", source.as_bytes());
    let told = format!("ranthelo: {name}: 1 test appended\n");
    gives(
        &["make", "--text", &name],
        0,
        &format!("{source}\r\nTEST 0\r\n"),
        &told,
    );
    let ended = "SIZE 1 1 2 # mine\nRULE 0 0 0 0\nFAULT 0 0 1 0\nEND\n# after\n";
    let name = file("ended.txt", ended.as_bytes());
    let told = format!("ranthelo: {name}: 1 test appended\n");
    gives(
        &["make", "--text", &name],
        0,
        &ended.replace("END", "TEST 0\nEND"),
        &told,
    );
    // In order it is another text.
    let mixed = "SIZE 1 2 2 # mine\nRULE 0 1 0 0\nRULE 0 0 0 0\nFAULT 0 0 1 0\n";
    let name = file("mixed-make.txt", mixed.as_bytes());
    let told = format!("ranthelo: {name}: 1 test appended\n");
    let sorted = "SIZE 1 2 2\nRULE 0 0 0 0\nRULE 0 1 0 0\nFAULT 0 0 1 0\nTEST 0\n";
    gives(&["make", "--text", "--sort", &name], 0, sorted, &told);
}

#[test]
fn at_most_so_many() {
    let told = "ranthelo: P9.txt: 1 test appended; the list is not complete yet\n";
    gives(
        &["make", "--tests", "--most", "1", "P9.txt"],
        1,
        "TEST 1 0 1 0 0 1 0\n",
        told,
    );
    let none = "ranthelo: P9.txt: 0 tests appended; the list is not complete yet\n";
    gives(&["make", "--tests", "--most", "0", "P9.txt"], 1, "", none);
    let all = output(&["make", "P9.txt"]).stdout;
    for most in ["2", "3", "1000"] {
        let made = output(&["make", "--most", most, "P9.txt"]);
        assert_eq!(
            (status(&made), &made.stdout, text(&made.stderr)),
            (0, &all, TOLD.to_string())
        );
    }
    let full = output(&["make", "--most", "3", "full-list.txt"]);
    let told = "ranthelo: full-list.txt: refused 18 at 0: the next test does not fit: 256 tests stand, 256 of them its \
                own\n";
    assert_eq!(
        (status(&full), full.stdout.len(), text(&full.stderr)),
        (2, 0, told.to_string())
    );
    let wrong = "ranthelo: make takes a number as --most, not few; see ranthelo help make\n";
    gives(&["make", "--most", "few", "P9.txt"], 3, "", wrong);
}

/// Which limit a list meets: so many tests, or so many bytes.
#[test]
fn which_limit() {
    let long =
        format!("TEST{}\n", " 0".repeat(256)).repeat(31) + &format!("TEST{}\n", " 0".repeat(229));
    let source = format!("SIZE 1 2 2\nRULE 0 0 0 0\nRULE 0 1 0 0\nFAULT 0 1 1 0\n{long}");
    let name = file("full-bytes.txt", source.as_bytes());
    let length = ranthelo::text::assemble(source.as_bytes()).unwrap().len();
    assert_eq!(length, ranthelo::MOST_BYTES - 2);
    let told = format!(
        "ranthelo: {name}: refused 18 at 0: the next test does not fit: with its 1 press the sheet would have {} \
         bytes, over 16384; 32 tests stand, 32 of them its own\n",
        length + 3
    );
    gives(&["make", &name], 2, "", &told);
}
