//! A lock's own record through the library, against code written a second time from 02.

use ranthelo_tests::enumeration::Machine;
use ranthelo_tests::generator::{self, Random, Shape, SMALL};
use ranthelo_tests::guarded::records::{checked_record, checked_record_board};
use ranthelo_tests::listed::{self, spelled};
use ranthelo_tests::records::{self, record_of, spell, Command, Explained, Recorded};
use ranthelo_tests::reference::{read, Refusal, Sheet};

fn refused<T>(number: usize, place: usize) -> Result<T, Refusal> {
    Err(Refusal { number, place })
}

fn open_pairs(bytes: &[u8]) -> usize {
    read(bytes).map_or(0, |reading| reading.sheet.summary().open_pairs)
}

/// Both operations, against the second program.
fn agree(bytes: &[u8], log: &[u8]) -> Result<Recorded, Refusal> {
    let told = checked_record(bytes, log);
    let place = || format!("{} with {log:?}", spelled(bytes));
    assert_eq!(told, records::check(bytes, log), "{}", place());
    let explained = checked_record_board(bytes, log, 40, 300, open_pairs(bytes));
    assert_eq!(
        explained,
        records::explain(bytes, log, 40, 300),
        "{}",
        place()
    );
    told
}

#[test]
fn listed_records() {
    let (p1, p4, p9) = (listed::p1(), listed::p4(), listed::p9());
    let told = |differs, given| Ok(Recorded { differs, given });
    // board 1 of P1 on 0 1 0 sounds 1 1 0, where the specification sounds 1 1 1
    let log = [0x10, 0x11, 0, 1, 0x11, 1, 1, 0x11, 0, 0];
    assert_eq!(agree(&p1, &log), told(Some(7), true));
    assert_eq!(agree(&p1, &[0x10, 0x11, 0, 0]), told(Some(1), false));
    // both sounds after 0 1, each in a run of its own: no single board gives them
    let both = [&log[..], &[0x10, 0x11, 0, 1, 0x11, 1, 1, 0x11, 0, 1][..]].concat();
    assert_eq!(agree(&p1, &both), told(Some(7), false));
    // press 1 at state 0 of P4 is undefined: nothing is compared until the next PULSE
    let undefined = [0x10, 0x11, 1, 1, 0x11, 0, 0, 0x10, 0x11, 0, 0];
    assert_eq!(agree(&p4, &undefined[..7]), told(None, true));
    assert_eq!(agree(&p4, &undefined), told(Some(8), false));
    assert_eq!(
        agree(&p9, &[0x10, 0x11, 1, 0, 0x11, 1, 0, 0x11, 0, 1]),
        told(None, true)
    );
    for sheet in [&p1, &p4, &p9] {
        assert_eq!(agree(sheet, &[]), told(None, true));
        assert_eq!(agree(sheet, &[0x10, 0x10, 0x10]), told(None, true));
    }
}

#[test]
fn refusals_and_their_places() {
    let p1 = listed::p1();
    let causes: [(&[u8], usize); 11] = [
        (&[0], 0),
        (&[0x11, 0, 1], 0),
        (&[0x10, 0x12], 1),
        (&[0x10, 0x11], 1),
        (&[0x10, 0x11, 0], 1),
        (&[0x10, 0x11, 2, 0], 1),
        (&[0x10, 0x11, 0, 2], 1),
        (&[0x10, 0x11, 0x10, 0], 1),
        (&[0x10, 0x11, 0, 1, 0x11, 1], 4),
        (&[0x10, 0x11, 0, 1, 9, 0x10], 4),
        (&[0x10, 0x10, 0x11, 0, 1, 0x11, 5, 1], 5),
    ];
    for (log, place) in causes {
        assert_eq!(agree(&p1, log), refused(20, place), "{log:?}");
        // before the buffers, and after the sheet
        assert_eq!(checked_record_board(&p1, log, 0, 0, 1), refused(20, place));
        assert_eq!(checked_record(&p1[..9], log), refused(2, 9));
    }
    assert_eq!(checked_record_board(&p1, &[0x10], 0, 3, 1), refused(16, 0));
    assert_eq!(checked_record_board(&p1, &[0x10], 1, 3, 1), refused(16, 1));
}

/// Some tests, defined or not.
fn some_tests(random: &mut Random, sheet: &Sheet) -> Vec<Vec<u8>> {
    let test = |random: &mut Random| {
        let length = random.below(9);
        match random.chance(50) {
            true => generator::walk(random, sheet, length),
            false => (0..length)
                .map(|_| random.below(sheet.presses.into()) as u8)
                .collect(),
        }
    };
    (0..random.below(6)).map(|_| test(random)).collect()
}

/// Records of a board, of two boards run after run, with sounds changed, and damaged.
#[test]
fn random_records() {
    let mut random = Random::new(0x5EED_0091);
    let shape = Shape {
        boards: 400,
        ..SMALL
    };
    let (mut given, mut not_given, mut differing, mut broken) = (0, 0, 0, 0);
    for i in 0..12_000 {
        let sheet = generator::sheet(&mut random, &shape);
        let machine = Machine::new(&sheet);
        let bytes = sheet.encode();
        let mut log = Vec::new();
        for _ in 0..=i % 3 {
            let board = generator::board(&mut random, &machine.counts());
            log.extend(record_of(
                &machine,
                &board,
                &some_tests(&mut random, &sheet),
            ));
        }
        if random.chance(30) && !log.is_empty() {
            let at = random.below(log.len());
            let bound = if random.chance(50) { 20 } else { 4 };
            log[at] = random.below(bound) as u8;
        }
        match agree(&bytes, &log) {
            Ok(told) => {
                given += usize::from(told.given);
                not_given += usize::from(!told.given);
                differing += usize::from(told.differs.is_some());
            }
            Err(_) => broken += 1,
        }
    }
    assert!(given > 1_000 && not_given > 1_000 && differing > 1_000 && broken > 300);
}

/// A board passes the list exactly if it gives the suite's record: so the first board that does so and the survivor, if
/// that is the first, are one.
#[test]
fn the_suites_record() {
    let mut random = Random::new(0x5EED_0092);
    for _ in 0..4_000 {
        let sheet = generator::sheet(
            &mut random,
            &Shape {
                boards: 400,
                ..SMALL
            },
        );
        let machine = Machine::new(&sheet);
        let (bytes, first) = (sheet.encode(), vec![0; machine.counts().len()]);
        // board 0 takes each RULE, so on the tests it sounds as specified
        let log = record_of(&machine, &first, &sheet.tests);
        let told = agree(&bytes, &log).unwrap();
        assert_eq!(
            told,
            Recorded {
                differs: None,
                given: true
            }
        );
        let passing = machine
            .boards()
            .find(|board| machine.mutant(board).first_failed().is_none());
        let explained = checked_record_board(&bytes, &log, 32, 256, first.len()).unwrap();
        assert_eq!(explained.map(|found| found.board), passing);
    }
}

/// Records of many more boards than can be tried, of a board of the sheet: given, and by a board not after it that
/// gives it.
#[test]
fn large_sheets() {
    let mut random = Random::new(0x5EED_0093);
    for _ in 0..400 {
        let sheet = generator::sheet(&mut random, &generator::LARGE);
        let machine = Machine::new(&sheet);
        let bytes = sheet.encode();
        let board = generator::board(&mut random, &machine.counts());
        let tests: Vec<_> = (0..8)
            .flat_map(|_| some_tests(&mut random, &sheet))
            .collect();
        let log = record_of(&machine, &board, &tests);
        assert!(checked_record(&bytes, &log).unwrap().given);
        let found = checked_record_board(&bytes, &log, 32, 256, board.len()).unwrap();
        let Some(Explained {
            board: first,
            sequence,
        }) = found
        else {
            panic!("a board gave it: {}", spelled(&bytes));
        };
        assert!(first <= board);
        assert_eq!(record_of(&machine, &first, &tests), log);
        assert_eq!(sequence, machine.mutant(&first).distinguish());
    }
}

/// A million commands: nothing of the record is copied, and no length is too long.
#[test]
fn a_million_commands() {
    let p9 = listed::p9();
    let machine = Machine::new(&read(&p9).unwrap().sheet);
    let run = record_of(
        &machine,
        &[3, 1, 0, 1],
        &[vec![1, 0, 1, 0, 0, 1, 1, 0], vec![0, 1, 0, 0, 1]],
    );
    let mut log = run.repeat(70_000);
    assert!(log.iter().filter(|&&byte| byte >= 0x10).count() > 1_000_000);
    assert!(checked_record(&p9, &log).unwrap().given);
    let last = log.len() - 1;
    log[last] ^= 1;
    assert!(!checked_record(&p9, &log).unwrap().given);
    log.push(0x11);
    assert_eq!(checked_record(&p9, &log), refused(20, last + 1));
    assert_eq!(spell(&[Command::Pulse]), [0x10]);
}

/// The sheets kept for measuring, which are hard to judge: the record of each list, and with a run more that the
/// specification gives and one that no board gives with it.
#[test]
fn hard_sheets() {
    let folder = concat!(env!("CARGO_MANIFEST_DIR"), "/../bench/machines");
    let files = std::fs::read_dir(folder).expect("the kept sheets");
    let mut random = Random::new(0x5EED_0094);
    let mut tried = 0;
    for file in files {
        let bytes = std::fs::read(file.unwrap().path()).unwrap();
        let sheet = read(&bytes).expect("an accepted sheet").sheet;
        let machine = Machine::new(&sheet);
        let first = vec![0; machine.counts().len()];
        let walk = generator::walk(&mut random, &sheet, 24);
        let mut tests = [&sheet.tests[..], &[walk.clone()]].concat();
        let log = record_of(&machine, &first, &tests);
        let told = checked_record(&bytes, &log).unwrap();
        assert_eq!(
            told,
            Recorded {
                differs: None,
                given: true
            }
        );
        // the same run twice, the second time with another sound at its end
        tests.push(walk);
        let mut log = record_of(&machine, &first, &tests);
        let last = log.len() - 1;
        log[last] = (log[last] + 1) % sheet.sounds;
        let told = checked_record(&bytes, &log).unwrap();
        assert_eq!(
            told,
            Recorded {
                differs: Some(last - 2),
                given: false
            }
        );
        tried += 1;
    }
    assert!(tried > 10);
}
