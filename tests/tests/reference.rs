//! The reference code against 01's rows and against itself. Needs no library.

use ranthelo_tests::enumeration::{self, Failure, Machine};
use ranthelo_tests::generator::{self, Random, Shape, SMALL};
use ranthelo_tests::listed::{self, spelled};
use ranthelo_tests::reference::{read, test_part, Refusal, Sheet, PRESS};

#[test]
fn listed_sheets_are_read_as_01_says() {
    let readings = listed::readings();
    assert_eq!(readings.len(), listed::all().len());
    for ((name, bytes), (same, expected)) in listed::all().into_iter().zip(readings) {
        assert_eq!(name, same);
        assert_eq!(read(&bytes).map(|r| r.sheet.summary()), expected, "{name}");
    }
}

#[test]
fn listed_sheets_are_judged_as_01_says() {
    for (name, bytes, survivor) in listed::verdicts() {
        assert_eq!(enumeration::judge(&bytes, 32, 256), Ok(survivor), "{name}");
    }
}

#[test]
fn boards_of_listed_sheets_run_as_01_says() {
    let ran = enumeration::run(&listed::p1(), &[1], &[0, 1, 0], 3).unwrap();
    assert_eq!(ran.sounds, [1, 1, 0]);
    let failed = enumeration::first_failed(&listed::p2(), &[1]).unwrap();
    let failure = Failure {
        test: 0,
        position: 2,
    };
    assert_eq!(failed.failure, Some(failure));
}

/// Accepted sheets say what their bytes say, and the reader counts open pairs as the judge does.
#[test]
fn accepted_sheets_are_spelled_by_their_bytes() {
    let mut random = Random::new(1);
    for _ in 0..20_000 {
        let bytes = generator::any_bytes(&mut random);
        let Ok(reading) = read(&bytes) else { continue };
        let sheet = reading.sheet;
        assert_eq!(sheet.encode(), bytes);
        let machine = Machine::new(&sheet);
        assert_eq!(machine.counts().len(), sheet.summary().open_pairs);
        for (i, test) in sheet.tests.iter().enumerate() {
            let part = &bytes[reading.parts[i].clone()];
            let presses: Vec<u8> = test.iter().flat_map(|&x| [PRESS, x]).collect();
            assert_eq!(part, presses, "{}", spelled(&bytes));
        }
    }
}

#[test]
fn generated_sheets_are_accepted() {
    let mut random = Random::new(2);
    for _ in 0..5_000 {
        for shape in [SMALL, generator::LARGE] {
            let sheet = generator::sheet(&mut random, &shape);
            let bytes = sheet.encode();
            let reading = read(&bytes).unwrap_or_else(|r| panic!("{r:?}: {}", spelled(&bytes)));
            assert_eq!(reading.sheet, sheet);
        }
    }
}

#[test]
fn damaged_sheets_meet_every_refusal() {
    let mut random = Random::new(3);
    let mut met = [0; 13];
    for _ in 0..20_000 {
        let number = match read(&generator::any_bytes(&mut random)) {
            Ok(_) => 0,
            Err(refusal) => refusal.number,
        };
        met[number] += 1;
    }
    assert!(met.iter().all(|&times| times > 0), "{met:?}");
    assert!(met[0] > 6_000, "{met:?}");
}

#[test]
fn parts_of_unknown_tests_are_refused() {
    let unknown = Refusal {
        number: 17,
        place: 0,
    };
    assert_eq!(test_part(&listed::p1(), 0), Ok(30..34));
    assert_eq!(test_part(&listed::p1(), 1), Err(unknown));
    assert_eq!(test_part(&listed::p3(), 0), Err(unknown));
    assert_eq!(test_part(&listed::p6(), usize::MAX), Err(unknown));
}

#[test]
fn boards_stand_in_dictionary_order() {
    let sheet = read(&listed::p9()).unwrap().sheet;
    let boards: Vec<Vec<u8>> = Machine::new(&sheet).boards().collect();
    assert_eq!(boards.len(), 8 * 2 * 2 * 2);
    assert!(boards.windows(2).all(|two| two[0] < two[1]));
    assert_eq!(boards[0], [0, 0, 0, 0]);
    assert_eq!(boards[63], [7, 1, 1, 1]);
    let none = read(&listed::p6()).unwrap().sheet;
    let boards: Vec<Vec<u8>> = Machine::new(&none).boards().collect();
    assert_eq!(boards, [[0u8; 0]]);
}

/// All defined sequences of a length, the smallest first.
fn defined_sequences(sheet: &Sheet, length: usize) -> Vec<Vec<u8>> {
    let mut list = vec![(0, vec![])];
    for _ in 0..length {
        let longer = |(s, sequence): &(u8, Vec<u8>)| -> Vec<(u8, Vec<u8>)> {
            let defined = |x| sheet.rules.get(&(*s, x)).map(|&(_, t)| (t, x));
            (0..sheet.presses)
                .filter_map(defined)
                .map(|(t, x)| (t, [&sequence[..], &[x]].concat()))
                .collect()
        };
        list = list.iter().flat_map(longer).collect();
    }
    list.into_iter().map(|(_, sequence)| sequence).collect()
}

/// The shortest distinguishing sequence is the first of all sequences up to n × n inputs.
#[test]
fn comparing_equals_trying_every_sequence() {
    let shape = Shape {
        states: 3,
        presses: 2,
        sounds: 2,
        ..SMALL
    };
    let mut random = Random::new(4);
    for _ in 0..1_000 {
        let sheet = generator::sheet(&mut random, &shape);
        let bound = usize::from(sheet.states).pow(2);
        let every: Vec<Vec<u8>> = (0..=bound)
            .flat_map(|length| defined_sequences(&sheet, length))
            .collect();
        let told = spelled(&sheet.encode());
        let machine = Machine::new(&Sheet {
            tests: every.clone(),
            ..sheet
        });
        let board = generator::board(&mut random, &machine.counts());
        let mutant = machine.mutant(&board);
        let first = mutant.first_failed().map(|f| every[f.test].clone());
        assert_eq!(mutant.distinguish(), first, "{board:?} of {told}");
    }
}
