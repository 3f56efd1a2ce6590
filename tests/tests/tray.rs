//! A tray of boards through the library, against the boards taken singly and the enumeration of all mutants.

use ranthelo_tests::enumeration::{self, Machine};
use ranthelo_tests::generator::{self, Random, Shape, SMALL};
use ranthelo_tests::guarded::mutation::{checked_first_failed, checked_tray};
use ranthelo_tests::listed::{self, spelled};
use ranthelo_tests::reference::{read, Refusal, MOST_BYTES};

fn refused(number: usize, place: usize) -> Result<Vec<u16>, Refusal> {
    Err(Refusal { number, place })
}

/// The boards one after another by first failed test; none if one of them is refused.
fn singly(bytes: &[u8], boards: &[Vec<u8>]) -> Option<Vec<u16>> {
    let result = |board: &Vec<u8>| {
        let failed = checked_first_failed(bytes, board).ok()?;
        Some(failed.failure.map_or(65_535, |failure| failure.test as u16))
    };
    boards.iter().map(result).collect()
}

fn agree(bytes: &[u8], boards: usize, choices: &[u8], room: usize) -> Result<Vec<u16>, Refusal> {
    let tried = checked_tray(bytes, boards, choices, room);
    let expected = enumeration::tray(bytes, boards, choices, room);
    let told = || format!("{boards} {room} {} {}", spelled(choices), spelled(bytes));
    assert_eq!(tried, expected, "{}", told());
    tried
}

/// P10's machine has P9's boards: two that pass, and one for each of its three tests.
#[test]
fn trays_of_listed_boards() {
    let boards = [0, 0, 0, 0, 7, 0, 0, 0, 0, 0, 1, 0, 0, 1, 0, 0, 0, 0, 0, 1];
    let results = vec![65_535, 65_535, 0, 1, 2];
    assert_eq!(checked_tray(&listed::p10(), 5, &boards, 5), Ok(results));
    let passing = vec![65_535, 65_535, 0, 65_535, 65_535];
    assert_eq!(checked_tray(&listed::p9(), 5, &boards, 9), Ok(passing));
    let waking = checked_tray(&listed::p1_start(), 2, &[1, 0, 0, 1], 2);
    assert_eq!(waking, Ok(vec![0, 65_535]));
    assert_eq!(checked_tray(&listed::p10(), 0, &[], 0), Ok(vec![]));
}

/// Every board of each listed sheet in one tray.
#[test]
fn every_board_of_the_listed_sheets() {
    for (name, bytes) in listed::all() {
        let Ok(reading) = read(&bytes) else { continue };
        let boards: Vec<Vec<u8>> = Machine::new(&reading.sheet).boards().take(500).collect();
        let tried = agree(&bytes, boards.len(), &boards.concat(), boards.len());
        assert_eq!(tried.ok(), singly(&bytes, &boards), "{name}");
    }
}

#[test]
fn refusals_come_in_order() {
    let p4 = listed::p4();
    assert_eq!(checked_tray(&p4[..9], 2, &[9], 0), refused(2, 9));
    assert_eq!(checked_tray(&p4, 2, &[9, 9, 9], 0), refused(13, 0));
    assert_eq!(checked_tray(&p4, 2, &[0, 0, 3, 2], 0), refused(14, 3));
    assert_eq!(checked_tray(&p4, 2, &[4, 0, 4, 0], 0), refused(14, 0));
    assert_eq!(checked_tray(&p4, 3, &[0, 0, 0, 0, 4, 2], 3), refused(14, 4));
    assert_eq!(checked_tray(&p4, 2, &[0; 4], 1), refused(16, 0));
    assert!(checked_tray(&p4, 2, &[0; 4], 2).is_ok());
}

/// The product of boards and choices is never formed: these would be 4 and 0 in 64 bits.
#[test]
fn numbers_of_boards_that_overflow() {
    let p9 = listed::p9();
    assert_eq!(checked_tray(&p9, 1 + (1 << 62), &[0; 4], 4), refused(13, 0));
    assert_eq!(checked_tray(&p9, 1 << 62, &[], 4), refused(13, 0));
    assert_eq!(checked_tray(&p9, usize::MAX, &[0; 4], 4), refused(13, 0));
    assert_eq!(
        checked_tray(&listed::p6(), usize::MAX, &[], 4),
        refused(16, 0)
    );
}

/// A board without choices makes an empty tray for any number of boards.
#[test]
fn without_open_pairs() {
    let p6 = listed::p6();
    for boards in [0, 1, 2, 70_000] {
        assert_eq!(agree(&p6, boards, &[], boards), Ok(vec![65_535; boards]));
        assert_eq!(agree(&p6, boards + 1, &[], boards), refused(16, 0));
        assert_eq!(agree(&p6, boards, &[0], boards), refused(13, 0));
    }
}

#[test]
fn random_trays() {
    let mut random = Random::new(0x5EED_1101);
    let (mut tried, mut high, mut failing, mut waking) = (0, 0, 0, 0);
    for _ in 0..20_000 {
        let shape = Shape {
            boards: 300,
            ..SMALL
        };
        let sheet = generator::sheet(&mut random, &shape);
        let (bytes, counts) = (sheet.encode(), Machine::new(&sheet).counts());
        let number = random.below(12);
        let boards: Vec<Vec<u8>> = (0..number)
            .map(|_| match random.chance(97) {
                true => generator::board(&mut random, &counts),
                false => generator::any_board(&mut random, &counts),
            })
            .collect();
        let told = if random.chance(97) {
            number
        } else {
            random.below(12)
        };
        let room = (told + random.below(3)).saturating_sub(usize::from(random.chance(3)));
        let choices = boards.concat();
        match agree(&bytes, told, &choices, room) {
            Ok(results) => {
                let board = |i: usize| choices[i * counts.len()..][..counts.len()].to_vec();
                let boards: Vec<Vec<u8>> = (0..told).map(board).collect();
                assert_eq!(Some(&results), singly(&bytes, &boards).as_ref());
                tried += usize::from(number > 1);
                failing += usize::from(results.iter().any(|&result| result < 65_535));
                waking += usize::from(!sheet.starts.is_empty());
            }
            Err(refusal) => high += usize::from(refusal.number == 14 && refusal.place > 0),
        }
    }
    assert!(tried > 10_000 && failing > 2_000 && waking > 1_000 && high > 200);
}

#[test]
fn damaged_sheets() {
    let mut random = Random::new(0x5EED_1102);
    for _ in 0..50_000 {
        let bytes = generator::any_bytes(&mut random);
        let choices: Vec<u8> = (0..random.below(12))
            .map(|_| random.below(3) as u8)
            .collect();
        let boards = random.below(6);
        let _ = agree(&bytes, boards, &choices, random.below(8));
    }
}

/// 256 tests of which the last alone fails, a sheet of 16,384 bytes, 32 open pairs, and 4,000 boards.
#[test]
fn limits() {
    let mut random = Random::new(0x5EED_1103);
    for bytes in [
        generator::many_faults(256),
        generator::many_tests(256, 3),
        generator::of_length(MOST_BYTES),
        listed::open_pairs(32),
    ] {
        let machine = Machine::new(&read(&bytes).expect("an accepted sheet").sheet);
        let counts = machine.counts();
        let boards: Vec<Vec<u8>> = (0..4_000)
            .map(|_| generator::board(&mut random, &counts))
            .collect();
        let tried = agree(&bytes, 4_000, &boards.concat(), 4_000);
        assert_eq!(tried.ok(), singly(&bytes, &boards));
    }
    let last = "04 ".repeat(255) + "04 05 00 06";
    let bytes =
        listed::hexadecimal(&("01 01 01 02 02 00 00 00 00 03 00 00 01 00 ".to_string() + &last));
    assert_eq!(agree(&bytes, 2, &[0, 1], 2), Ok(vec![65_535, 255]));
}
