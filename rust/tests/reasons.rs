//! What a refusal's number means at its place, for each number that reading gives.

use ranthelo::{explain, read, text};

fn refused(source: &str, number: usize, place: usize, reason: &str) {
    let sheet = text::assemble(source.as_bytes()).expect("a text");
    let refusal = read(&sheet).expect_err(source);
    assert_eq!((refusal.number, refusal.place), (number, place), "{source}");
    assert_eq!(explain::reason(&sheet, refusal), reason, "{source}");
}

#[test]
fn of_the_form() {
    refused("HEX", 2, 0, "the sheet ends without END");
    refused(
        "SIZE 1 1 1\nHEX 02 00 00",
        2,
        4,
        "operands of RULE are missing: 2 of 4 are there",
    );
    refused("HEX ff", 3, 0, "ff is no command byte");
    refused("TEST", 3, 0, "TEST can't stand before SIZE");
    refused(
        "SIZE 1 1 1\nTEST\nRULE 0 0 0 0",
        3,
        5,
        "RULE can't follow TEST",
    );
    refused("SIZE 1 1 1\nPRESS 0", 3, 4, "PRESS can't follow SIZE");
    refused(
        "SIZE 0 1 17",
        4,
        0,
        "states 0 is not 1 to 16, sounds 17 is not 1 to 16",
    );
    refused("SIZE 1 1 1\nEND\nTEST", 10, 5, "byte 04 follows END");
    let long = "SIZE 1 1 1\n".to_string() + &"TEST\n".repeat(16_380);
    refused(&long, 1, 16_384, "over 16,384 bytes");
}

#[test]
fn of_rows() {
    refused(
        "SIZE 2 1 1\nRULE 0 1 0 2",
        5,
        4,
        "press 1 is not below 1, next state 2 is not below 2",
    );
    refused("SIZE 1 1 1\nTEST 1", 5, 5, "press 1 is not below 1");
    let rules = "SIZE 1 2 2\nRULE 0 1 0 0\nRULE 0 0 0 0";
    refused(rules, 6, 9, "it does not ascend after RULE 0 1 0 0");
    let faults = "SIZE 1 1 4\nRULE 0 0 0 0\nFAULT 0 0 2 0\nFAULT 0 0 1 0";
    refused(faults, 6, 14, "it does not ascend after FAULT 0 0 2 0");
    refused(
        "SIZE 1 1 1\nFAULT 0 0 0 0",
        7,
        4,
        "no RULE at state 0, press 0",
    );
    let equal = "SIZE 1 1 1\nRULE 0 0 0 0\nFAULT 0 0 0 0";
    refused(equal, 7, 9, "it equals the RULE at state 0, press 0");
}

#[test]
fn of_starts() {
    let machine = "SIZE 3 1 1\nRULE 0 0 0 1\nRULE 1 0 0 2\nRULE 2 0 0 0\n";
    let refused = |starts: &str, number, place, reason: &str| {
        refused(&format!("{machine}{starts}"), number, place, reason);
    };
    refused("START 3", 5, 19, "state 3 is not below 3");
    refused(
        "START 2\nSTART 1",
        6,
        21,
        "it does not ascend after START 2",
    );
    refused(
        "START 2\nSTART 0",
        6,
        21,
        "it does not ascend after START 2",
    );
    refused("START 0", 7, 19, "every board may wake in state 0");
    refused("TEST\nSTART 1", 3, 20, "START can't follow TEST");
}

#[test]
fn of_quiet() {
    refused("QUIET", 3, 0, "QUIET can't stand before SIZE");
    refused("SIZE 1 1 1\nQUIET\nQUIET", 3, 5, "QUIET can't follow QUIET");
    refused(
        "SIZE 1 1 1\nRULE 0 0 0 0\nQUIET",
        3,
        9,
        "QUIET can't follow RULE",
    );
}

#[test]
fn of_numbers() {
    let tests = "SIZE 1 1 1\n".to_string() + &"TEST\n".repeat(257);
    refused(&tests, 8, 260, "256 TESTs stand before it");
    let presses = "SIZE 1 1 1\nRULE 0 0 0 0\nTEST\nTEST".to_string() + &" 0".repeat(257);
    refused(&presses, 8, 523, "256 PRESSes of its test stand before it");
}

#[test]
fn of_the_machine() {
    let undefined = "SIZE 2 2 1\nRULE 0 0 0 1\nTEST 0 0";
    refused(
        undefined,
        9,
        12,
        "the test has reached state 1, which has no RULE for press 0",
    );
    refused("SIZE 2 1 1", 11, 4, "state 1 can't be reached by RULEs");
    refused(
        "SIZE 4 1 1\nRULE 0 0 0 2",
        11,
        9,
        "states 1, 3 can't be reached by RULEs",
    );
    let open = "SIZE 3 12 1\nRULE 0 0 0 1\nRULE 1 0 0 2\nRULE 2 0 0 0";
    refused(open, 12, 19, "33 open pairs, over 32");
}
