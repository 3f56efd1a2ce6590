//! Run, first failed test and compare through the library, against the enumeration.

use ranthelo_tests::enumeration::{self, Failed, Failure, Machine, Ran, Used};
use ranthelo_tests::generator::{self, Random, LARGE, SMALL};
use ranthelo_tests::guarded::mutation::{checked_compare, checked_first_failed, checked_run};
use ranthelo_tests::listed::{self, spelled};
use ranthelo_tests::reference::{read, Refusal, Sheet};

fn told(bytes: &[u8], board: &[u8]) -> String {
    format!("board {board:?} of {}", spelled(bytes))
}

fn agree_on_run(bytes: &[u8], board: &[u8], presses: &[u8], room: usize) {
    let expected = enumeration::run(bytes, board, presses, room);
    let sounds = checked_run(bytes, board, presses, room);
    let told = told(bytes, board);
    assert_eq!(sounds, expected, "{presses:?} with {room} bytes, {told}");
}

fn agree_on_first_failed(bytes: &[u8], board: &[u8]) {
    let expected = enumeration::first_failed(bytes, board);
    let failed = checked_first_failed(bytes, board);
    assert_eq!(failed, expected, "{}", told(bytes, board));
}

fn agree_on_compare(bytes: &[u8], board: &[u8], room: usize) {
    let expected = enumeration::compare(bytes, board, room);
    let sequence = checked_compare(bytes, board, room);
    let told = told(bytes, board);
    assert_eq!(sequence, expected, "{room} bytes, {told}");
}

fn counts(sheet: &Sheet) -> Vec<usize> {
    Machine::new(sheet).counts()
}

/// The open pairs of a set.
fn used(pairs: &[usize]) -> Used {
    Used {
        number: pairs.len(),
        set: pairs.iter().map(|pair| 1 << pair).sum(),
    }
}

fn runs(bytes: &[u8], board: &[u8], presses: &[u8], sounds: &[u8], pairs: &[usize]) {
    let expected = Ran {
        sounds: sounds.to_vec(),
        used: used(pairs),
    };
    let ran = checked_run(bytes, board, presses, presses.len());
    let told = told(bytes, board);
    assert_eq!(ran, Ok(expected), "{presses:?}, {told}");
}

#[test]
fn runs_of_listed_boards() {
    runs(&listed::p1(), &[1], &[0, 1, 0], &[1, 1, 0], &[0]);
    runs(&listed::p1(), &[0], &[0, 1, 0], &[1, 1, 1], &[0]);
    runs(&listed::p4(), &[3, 1], &[1, 1, 0], &[1, 1, 0], &[0, 1]);
    runs(&listed::p4(), &[3, 1], &[0, 1], &[1, 1], &[1]);
    runs(&listed::p1(), &[1], &[0, 0], &[1, 0], &[]);
    runs(&listed::p1(), &[1], &[], &[], &[]);
    runs(
        &listed::p4_quiet(),
        &[1],
        &[1, 1, 0, 1],
        &[0, 0, 1, 1],
        &[0],
    );
    runs(
        &listed::p4_quiet_start(),
        &[1, 0],
        &[1, 1, 0],
        &[1, 0, 1],
        &[0, 1],
    );
    runs(&listed::p1_start(), &[1, 0], &[], &[], &[0]);
    runs(&listed::p1_start(), &[1, 0], &[0], &[0], &[0]);
    runs(&listed::p1_start(), &[1, 1], &[1, 0], &[1, 0], &[0, 1]);
    runs(
        &listed::p1_start(),
        &[0, 1],
        &[0, 1, 0],
        &[1, 1, 0],
        &[0, 1],
    );
}

fn fails(bytes: &[u8], board: &[u8], place: Option<(usize, usize)>, pairs: &[usize]) {
    let expected = Failed {
        failure: place.map(|(test, position)| Failure { test, position }),
        used: used(pairs),
    };
    let failed = checked_first_failed(bytes, board);
    assert_eq!(failed, Ok(expected), "{}", told(bytes, board));
}

#[test]
fn first_failed_tests_of_listed_boards() {
    fails(&listed::p2(), &[1], Some((0, 2)), &[0]);
    fails(&listed::p1(), &[1], None, &[0]);
    fails(&listed::p3(), &[1], None, &[]);
    fails(&listed::p10(), &[0, 0, 0, 1], Some((2, 6)), &[0, 1, 2, 3]);
    fails(&listed::p10(), &[0, 1, 0, 0], Some((1, 2)), &[1, 2, 3]);
    fails(&listed::p10(), &[0, 0, 1, 0], Some((0, 3)), &[1, 2]);
    fails(&listed::p1_start(), &[1, 0], Some((0, 0)), &[0]);
    fails(&listed::p1_start(), &[0, 1], None, &[0, 1]);
    fails(&listed::only_start(), &[1], None, &[0]);
}

/// The last of 32 open pairs alone, and all of them: each pair of a state leads back to it.
#[test]
fn sets_of_thirty_two_pairs() {
    let bytes = listed::open_pairs(32);
    let board = [vec![0; 10], vec![1; 11], vec![2; 11]].concat();
    runs(&bytes, &board, &[0, 0, 11], &[0; 3], &[31]);
    let presses: Vec<u8> = (2..12).chain(0..12).chain(0..12).collect();
    let all: Vec<usize> = (0..32).collect();
    runs(&bytes, &board, &presses, &[0; 34], &all);
}

fn compares(bytes: &[u8], board: &[u8], sequence: Option<&[u8]>) {
    let expected = Ok(sequence.map(<[u8]>::to_vec));
    let told = told(bytes, board);
    assert_eq!(checked_compare(bytes, board, 16), expected, "{told}");
    agree_on_compare(bytes, board, 256);
}

#[test]
fn comparisons_of_listed_boards() {
    compares(&listed::p1(), &[0], None);
    compares(&listed::p1(), &[1], Some(&[0, 1, 0]));
    compares(&listed::p3(), &[1], Some(&[0, 1, 0]));
    compares(&listed::p4(), &[3, 0], None);
    compares(&listed::p4(), &[0, 1], Some(&[0, 1, 0]));
    compares(&listed::p6(), &[], None);
    compares(&listed::p9(), &[7, 0, 0, 0], None);
    compares(&listed::p9(), &[0, 1, 0, 0], Some(&[1, 0, 0]));
    compares(&listed::p9(), &[0, 0, 1, 0], Some(&[1, 0, 1, 0]));
    compares(&listed::p4_quiet(), &[0], None);
    compares(&listed::p4_quiet(), &[1], Some(&[0, 1, 0]));
    compares(&listed::p1_start(), &[1, 0], Some(&[0]));
    compares(&listed::p1_start(), &[0, 1], Some(&[0, 1, 0]));
    compares(&listed::equal_start(), &[1], None);
    let late: &[u8] = &[1, 0, 1, 0, 0, 1, 0];
    compares(&listed::p9(), &[0, 0, 0, 1], Some(late));
}

#[test]
fn every_board_of_the_listed_sheets() {
    for (_, bytes, _) in listed::verdicts() {
        let sheet = read(&bytes).unwrap().sheet;
        for board in Machine::new(&sheet).boards() {
            agree_on_first_failed(&bytes, &board);
            agree_on_compare(&bytes, &board, 16);
            agree_on_run(&bytes, &board, &[0; 9], 9);
        }
    }
}

fn refused<T>(number: usize, place: usize) -> Result<T, Refusal> {
    Err(Refusal { number, place })
}

/// With everything wrong at once, and then one thing after another put right.
#[test]
fn refusals_of_run_come_in_order() {
    let p4 = listed::p4();
    let presses = [1, 2, 9];
    assert_eq!(checked_run(&p4[..9], &[9], &presses, 0), refused(2, 9));
    assert_eq!(checked_run(&p4, &[9], &presses, 0), refused(13, 0));
    assert_eq!(checked_run(&p4, &[9, 9, 9], &presses, 0), refused(13, 0));
    assert_eq!(checked_run(&p4, &[4, 2], &presses, 0), refused(14, 0));
    assert_eq!(checked_run(&p4, &[3, 2], &presses, 0), refused(14, 1));
    assert_eq!(checked_run(&p4, &[3, 1], &presses, 0), refused(15, 1));
    assert_eq!(checked_run(&p4, &[3, 1], &[1, 1, 9], 0), refused(15, 2));
    assert_eq!(checked_run(&p4, &[3, 1], &[1, 1, 0], 2), refused(16, 0));
    assert_eq!(checked_run(&p4, &[3, 1], &[1], 0), refused(16, 0));
    assert!(checked_run(&p4, &[3, 1], &[1, 1, 0], 3).is_ok());
}

#[test]
fn refusals_of_first_failed_come_in_order() {
    let p4 = listed::p4();
    assert_eq!(checked_first_failed(&p4[..9], &[9]), refused(2, 9));
    assert_eq!(checked_first_failed(&p4, &[9]), refused(13, 0));
    assert_eq!(checked_first_failed(&p4, &[4, 2]), refused(14, 0));
    assert_eq!(checked_first_failed(&p4, &[3, 2]), refused(14, 1));
    fails(&p4, &[3, 1], None, &[1]);
}

#[test]
fn refusals_of_compare_come_in_order() {
    let p4 = listed::p4();
    assert_eq!(checked_compare(&p4[..9], &[9], 0), refused(2, 9));
    assert_eq!(checked_compare(&p4, &[9], 0), refused(13, 0));
    assert_eq!(checked_compare(&p4, &[4, 2], 0), refused(14, 0));
    assert_eq!(checked_compare(&p4, &[3, 2], 3), refused(14, 1));
    assert_eq!(checked_compare(&p4, &[3, 1], 3), refused(16, 0));
    assert_eq!(checked_compare(&p4, &[3, 0], 3), refused(16, 0));
    assert_eq!(checked_compare(&p4, &[3, 0], 4), Ok(None));
}

/// Presses, mostly in range, that need not be defined.
fn any_presses(random: &mut Random, sheet: &Sheet) -> Vec<u8> {
    let defined = random.below(12);
    let mut presses = generator::walk(random, sheet, defined);
    let bound = usize::from(sheet.presses) + usize::from(random.chance(4));
    presses.extend((0..random.below(12)).map(|_| random.below(bound) as u8));
    presses
}

/// A buffer's length: enough, or now and then too little.
fn any_room(random: &mut Random, needed: usize) -> usize {
    match random.below(10) {
        0 => random.below(needed + 1),
        1 => needed.saturating_sub(1),
        2..=4 => needed + random.below(20),
        _ => needed,
    }
}

/// All three operations on one board of a sheet.
fn agree_on_board(random: &mut Random, sheet: &Sheet, bytes: &[u8], board: &[u8]) {
    let presses = any_presses(random, sheet);
    let room = any_room(random, presses.len());
    agree_on_run(bytes, board, &presses, room);
    agree_on_first_failed(bytes, board);
    let room = any_room(random, usize::from(sheet.states).pow(2));
    agree_on_compare(bytes, board, room);
}

#[test]
fn random_sheets_and_boards() {
    let mut random = Random::new(0x5EED_0004);
    for i in 0..100_000 {
        let shape = if i % 20 == 0 { LARGE } else { SMALL };
        let sheet = generator::sheet(&mut random, &shape);
        let bytes = sheet.encode();
        let board = generator::any_board(&mut random, &counts(&sheet));
        agree_on_board(&mut random, &sheet, &bytes, &board);
    }
}

#[test]
fn damaged_sheets() {
    let mut random = Random::new(0x5EED_0005);
    for _ in 0..10_000 {
        let sheet = generator::sheet(&mut random, &SMALL);
        let bytes = generator::damaged(&mut random, &sheet.encode());
        let board = generator::any_board(&mut random, &counts(&sheet));
        agree_on_board(&mut random, &sheet, &bytes, &board);
    }
}

#[test]
fn pair_with_255_faults() {
    let bytes = generator::faults_at_one_pair(255);
    let mut sheet = read(&bytes).unwrap().sheet;
    sheet.tests = vec![vec![], vec![0; 3], vec![0; 40]];
    let bytes = sheet.encode();
    for choice in 0..=255 {
        agree_on_run(&bytes, &[choice], &[0; 60], 60);
        agree_on_first_failed(&bytes, &[choice]);
        agree_on_compare(&bytes, &[choice], 256);
    }
}

#[test]
fn thirty_two_pairs_of_256_choices() {
    let mut sheet = generator::ring(3);
    sheet.tests = vec![vec![0; 256], vec![]];
    let bytes = sheet.encode();
    let counts = counts(&sheet);
    assert_eq!(counts, [256; 32]);
    let mut random = Random::new(0x5EED_0006);
    agree_on_board(&mut random, &sheet, &bytes, &[255; 32]);
    for _ in 0..500 {
        let board = generator::any_board(&mut random, &counts);
        agree_on_board(&mut random, &sheet, &bytes, &board);
    }
}
