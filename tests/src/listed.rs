//! The sheets that document 01 lists, spelled here from its words, and some with what 02 adds.

use crate::enumeration::Survivor;
use crate::reference::{
    Refusal, Sheet, Summary, END, FAULT, PRESS, QUIET, RULE, SIZE, START, TEST,
};

/// Bytes from hexadecimal; what follows `#` or `--` on a line is a comment.
pub fn hexadecimal(text: &str) -> Vec<u8> {
    text.lines()
        .map(|line| line.split('#').next().unwrap_or(""))
        .map(|line| line.split("--").next().unwrap_or(""))
        .flat_map(str::split_whitespace)
        .map(|byte| u8::from_str_radix(byte, 16).expect("two hexadecimal digits"))
        .collect()
}

/// Bytes in hexadecimal, for messages.
pub fn spelled(bytes: &[u8]) -> String {
    let list: Vec<String> = bytes.iter().map(|byte| format!("{byte:02x}")).collect();
    list.join(" ")
}

pub fn p1() -> Vec<u8> {
    hexadecimal(
        "01 02 02 02  02 00 00 01 01  02 00 01 00 00  02 01 00 00 01  02 01 01 01 00
         03 01 01 01 01  04 05 00 05 01 06",
    )
}

pub fn p2() -> Vec<u8> {
    before_end(p1(), &[PRESS, 0])
}

pub fn p3() -> Vec<u8> {
    without(p1(), &[TEST, PRESS, 0, PRESS, 1])
}

pub fn p4() -> Vec<u8> {
    without(p1(), &[RULE, 0, 1, 0, 0])
}

pub fn p5() -> Vec<u8> {
    before_end(p4(), &[PRESS, 0])
}

pub fn p6() -> Vec<u8> {
    hexadecimal("01 01 01 01 06")
}

/// P3 with 256 empty tests: no test can be appended.
pub fn full_list() -> Vec<u8> {
    before_end(p3(), &[TEST; 256])
}

/// P4 whose boards ignore the unspecified press.
pub fn p4_quiet() -> Vec<u8> {
    after_size(p4(), &[QUIET])
}

/// The same, and they may wake in state 1.
pub fn p4_quiet_start() -> Vec<u8> {
    after_faults(p4_quiet(), &[START, 1])
}

/// The ring of 16 states with 16 presses and rules at 56 pairs, 200 unspecified ones, and quiet.
pub fn quiet_pairs() -> Vec<u8> {
    let mut sheet = crate::generator::ring(16);
    let more = sheet.pairs().filter(|&(_, x)| x > 0).take(40);
    let more: Vec<_> = more.map(|(s, x)| ((s, x), (0, s))).collect();
    sheet.rules.extend(more);
    sheet.quiet = true;
    sheet.encode()
}

/// P1 whose boards may wake in state 1.
pub fn p1_start() -> Vec<u8> {
    after_faults(p1(), &[START, 1])
}

/// P1 without its test and its fault, whose boards may wake in state 1.
pub fn only_start() -> Vec<u8> {
    without(after_faults(p3(), &[START, 1]), &[FAULT, 1, 1, 1, 1])
}

/// Two states that sound alike, and boards that may wake in either.
pub fn equal_start() -> Vec<u8> {
    hexadecimal("01 02 01 01  02 00 00 00 01  02 01 00 00 00  07 01 06")
}

pub fn p9() -> Vec<u8> {
    published(&["bababa"])
}

pub fn p10() -> Vec<u8> {
    published(&["bababa", "baa", "babaaba"])
}

/// The machine of source document 000 with a test suite.
fn published(suite: &[&str]) -> Vec<u8> {
    let letters = |test: &&str| test.bytes().map(|letter| letter - b'a').collect();
    Sheet {
        states: 4,
        presses: 2,
        sounds: 2,
        rules: [
            ((0, 0), (0, 0)),
            ((0, 1), (0, 1)),
            ((1, 0), (0, 2)),
            ((2, 0), (0, 2)),
            ((2, 1), (0, 3)),
            ((3, 0), (1, 0)),
            ((3, 1), (0, 1)),
        ]
        .into(),
        faults: [((2, 0), (1, 2)), ((2, 1), (0, 2)), ((3, 0), (1, 1))].into(),
        tests: suite.iter().map(letters).collect(),
        ..Sheet::default()
    }
    .encode()
}

/// Three states in a row and `open` pairs without a rule among the 36.
pub fn open_pairs(open: usize) -> Vec<u8> {
    let mut sheet = Sheet {
        states: 3,
        presses: 12,
        sounds: 1,
        ..Sheet::default()
    };
    let rules = 36 - open;
    for s in 0..3 {
        sheet.rules.insert((s, 0), (0, (s + 1) % 3));
    }
    for x in 1..=rules - 3 {
        sheet.rules.insert((0, x as u8), (0, 0));
    }
    sheet.encode()
}

/// One state, one press, one sound and so many empty tests.
pub fn tests(number: usize) -> Vec<u8> {
    let mut bytes = vec![SIZE, 1, 1, 1];
    bytes.resize(4 + number, TEST);
    bytes.push(END);
    bytes
}

/// Every listed sheet with the name of its file in examples/.
pub fn all() -> Vec<(&'static str, Vec<u8>)> {
    vec![
        ("P1", p1()),
        ("P2", p2()),
        ("P3", p3()),
        ("P4", p4()),
        ("P5", p5()),
        ("P6", p6()),
        ("P9", p9()),
        ("P10", p10()),
        ("P1-start", p1_start()),
        ("P4-quiet", p4_quiet()),
        ("P4-quiet-start", p4_quiet_start()),
        ("200-quiet-pairs", quiet_pairs()),
        ("only-start", only_start()),
        ("equal-start", equal_start()),
        ("empty", vec![]),
        ("unknown-command", hexadecimal("00")),
        ("cut-size", hexadecimal("01 02")),
        ("17-states", hexadecimal("01 11 01 01 06")),
        ("16-states", hexadecimal("01 10 01 01 06")),
        ("unreachable-state", hexadecimal("01 02 01 01 06")),
        ("32-open-pairs", open_pairs(32)),
        ("33-open-pairs", open_pairs(33)),
        ("256-tests", tests(256)),
        ("257-tests", tests(257)),
        ("full-list", full_list()),
    ]
}

/// The sheets to be judged, each with the survivor, or none if the suite is complete.
pub fn verdicts() -> Vec<(&'static str, Vec<u8>, Option<Survivor>)> {
    let survivor = |board: &[u8], sequence: &[u8]| {
        let (board, sequence) = (board.to_vec(), sequence.to_vec());
        Some(Survivor { board, sequence })
    };
    vec![
        ("P1", p1(), survivor(&[1], &[0, 1, 0])),
        ("P2", p2(), None),
        ("P3", p3(), survivor(&[1], &[0, 1, 0])),
        ("P4", p4(), survivor(&[0, 1], &[0, 1, 0])),
        ("P5", p5(), None),
        ("P6", p6(), None),
        ("P9", p9(), survivor(&[0, 0, 0, 1], &[1, 0, 1, 0, 0, 1, 0])),
        ("P10", p10(), None),
        ("P1-start", p1_start(), survivor(&[0, 1], &[0, 1, 0])),
        ("only-start", only_start(), survivor(&[1], &[0])),
        ("P4-quiet", p4_quiet(), survivor(&[1], &[0, 1, 0])),
        (
            "P4-quiet-start",
            p4_quiet_start(),
            survivor(&[0, 1], &[0, 1, 0]),
        ),
        ("200-quiet-pairs", quiet_pairs(), None),
        ("equal-start", equal_start(), None),
        ("full-list", full_list(), survivor(&[1], &[0, 1, 0])),
    ]
}

/// Every listed sheet with what reading makes of it.
pub fn readings() -> Vec<(&'static str, Result<Summary, Refusal>)> {
    let accepted = |[states, presses, sounds, rules, faults, tests, open_pairs]: [usize; 7]| {
        Ok(Summary {
            states,
            presses,
            sounds,
            rules,
            faults,
            tests,
            open_pairs,
        })
    };
    let refused = |number, place| Err(Refusal { number, place });
    vec![
        ("P1", accepted([2, 2, 2, 4, 1, 1, 1])),
        ("P2", accepted([2, 2, 2, 4, 1, 1, 1])),
        ("P3", accepted([2, 2, 2, 4, 1, 0, 1])),
        ("P4", accepted([2, 2, 2, 3, 1, 1, 2])),
        ("P5", accepted([2, 2, 2, 3, 1, 1, 2])),
        ("P6", accepted([1, 1, 1, 0, 0, 0, 0])),
        ("P9", accepted([4, 2, 2, 7, 3, 1, 4])),
        ("P10", accepted([4, 2, 2, 7, 3, 3, 4])),
        ("P1-start", accepted([2, 2, 2, 4, 1, 1, 2])),
        ("P4-quiet", accepted([2, 2, 2, 3, 1, 1, 1])),
        ("P4-quiet-start", accepted([2, 2, 2, 3, 1, 1, 2])),
        ("200-quiet-pairs", accepted([16, 16, 16, 56, 0, 0, 0])),
        ("only-start", accepted([2, 2, 2, 4, 0, 0, 1])),
        ("equal-start", accepted([2, 1, 1, 2, 0, 0, 1])),
        ("empty", refused(2, 0)),
        ("unknown-command", refused(3, 0)),
        ("cut-size", refused(2, 0)),
        ("17-states", refused(4, 0)),
        ("16-states", refused(11, 4)),
        ("unreachable-state", refused(11, 4)),
        ("32-open-pairs", accepted([3, 12, 1, 4, 0, 0, 32])),
        ("33-open-pairs", refused(12, 19)),
        ("256-tests", accepted([1, 1, 1, 0, 0, 256, 0])),
        ("257-tests", refused(8, 4 + 256)),
        ("full-list", accepted([2, 2, 2, 4, 1, 256, 1])),
    ]
}

/// The bytes with commands after SIZE.
pub fn after_size(mut bytes: Vec<u8>, commands: &[u8]) -> Vec<u8> {
    bytes.splice(4..4, commands.iter().copied());
    bytes
}

/// The bytes with commands after the FAULTs of P1's machine.
pub fn after_faults(mut bytes: Vec<u8>, commands: &[u8]) -> Vec<u8> {
    let fault = [FAULT, 1, 1, 1, 1];
    let place = bytes.windows(5).position(|window| window == fault);
    let place = place.expect("P1's fault stands in the sheet") + 5;
    bytes.splice(place..place, commands.iter().copied());
    bytes
}

fn before_end(mut bytes: Vec<u8>, commands: &[u8]) -> Vec<u8> {
    let end = bytes.len() - 1;
    bytes.splice(end..end, commands.iter().copied());
    bytes
}

/// The bytes without the one place where these commands stand.
fn without(mut bytes: Vec<u8>, commands: &[u8]) -> Vec<u8> {
    let place = bytes
        .windows(commands.len())
        .position(|window| window == commands)
        .expect("the commands stand in the sheet");
    bytes.drain(place..place + commands.len());
    bytes
}
