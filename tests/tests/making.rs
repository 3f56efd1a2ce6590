//! Make through the library, against the enumeration of all mutants.

use ranthelo_tests::enumeration::{self, Machine, Made};
use ranthelo_tests::generator::{self, Random, Shape, SMALL};
use ranthelo_tests::guarded::judge::checked_judge;
use ranthelo_tests::guarded::making::checked_make;
use ranthelo_tests::listed::{self, spelled};
use ranthelo_tests::reference::{read, Refusal, Sheet, MOST_BYTES, MOST_PRESSES, MOST_TESTS};
use std::fs;
use std::path::PathBuf;

fn refused(number: usize) -> Result<Made, Refusal> {
    Err(Refusal { number, place: 0 })
}

fn make(bytes: &[u8]) -> Result<Made, Refusal> {
    checked_make(bytes, MOST_BYTES)
}

fn sheet_of(bytes: &[u8]) -> Sheet {
    read(bytes).expect("an accepted sheet").sheet
}

/// The sheet with tests after its own.
fn with_tests(sheet: &Sheet, tests: &[Vec<u8>]) -> Sheet {
    let tests = [&sheet.tests[..], tests].concat();
    Sheet {
        tests,
        ..sheet.clone()
    }
}

/// The sheet with the first of its tests, so many.
fn with_first(sheet: &Sheet, tests: usize) -> Sheet {
    let tests = sheet.tests[..tests].to_vec();
    Sheet {
        tests,
        ..sheet.clone()
    }
}

/// The tests that make the listed sheets complete.
#[test]
fn listed_sheets() {
    let p9 = [vec![1, 0, 1, 0, 0, 1, 0], vec![1, 0, 0]];
    for (name, bytes, tests) in [
        ("P1", listed::p1(), &[vec![0, 1, 0]][..]),
        ("P3", listed::p3(), &[vec![0, 1, 0]]),
        ("P4", listed::p4(), &[vec![0, 1, 0]]),
        ("P9", listed::p9(), &p9),
        ("P2", listed::p2(), &[]),
        ("P6", listed::p6(), &[]),
        ("P10", listed::p10(), &[]),
        ("256 tests", listed::tests(256), &[]),
        ("only START", listed::only_start(), &[vec![0]]),
    ] {
        let made = Made {
            sheet: with_tests(&sheet_of(&bytes), tests).encode(),
            appended: tests.len(),
        };
        assert_eq!(make(&bytes), Ok(made), "{name}");
    }
    for (name, bytes) in listed::all() {
        if !name.starts_with("32") {
            assert_eq!(
                make(&bytes),
                enumeration::make(&bytes, MOST_BYTES),
                "{name}"
            );
        }
    }
}

/// What 02 says of a made sheet, by enumeration.
fn keeps_its_promises(sheet: &Sheet, made: &Made) {
    let told = spelled(&sheet.encode());
    let longer = sheet_of(&made.sheet);
    let tests = sheet.tests.len();
    assert_eq!(&with_first(&longer, tests), sheet, "{told}");
    assert_eq!(longer.tests.len(), tests + made.appended, "{told}");
    assert_eq!(Machine::new(&longer).judge(), None, "{told}");
    for test in tests..longer.tests.len() {
        assert!(is_needed(&longer, test), "test {test}: {told}");
    }
}

/// Some nonconforming mutant passes all tests before this one and fails it.
fn is_needed(sheet: &Sheet, test: usize) -> bool {
    let machine = Machine::new(&with_first(sheet, test + 1));
    let needs = |board: Vec<u8>| {
        let mutant = machine.mutant(&board);
        let failure = mutant.first_failed();
        failure.is_some_and(|failure| failure.test == test) && mutant.distinguish().is_some()
    };
    machine.boards().any(needs)
}

/// A sheet with few enough boards to try them all, in half of all cases without tests.
fn small_sheet(random: &mut Random, boards: u64) -> Sheet {
    let sheet = generator::sheet(random, &Shape { boards, ..SMALL });
    match random.chance(50) {
        true => with_first(&sheet, 0),
        false => sheet,
    }
}

#[test]
fn random_sheets() {
    let mut random = Random::new(0x5EED_0601);
    let (mut waking, mut quiet, mut begun, mut many) = (0, 0, 0, 0);
    for i in 0..50_000 {
        let sheet = small_sheet(&mut random, if i % 50 == 0 { 5_000 } else { 300 });
        let bytes = sheet.encode();
        let room = MOST_BYTES + random.below(3);
        let made = checked_make(&bytes, room);
        assert_eq!(made, enumeration::make(&bytes, room), "{}", spelled(&bytes));
        let made = made.expect("room for the tests");
        keeps_its_promises(&sheet, &made);
        if made.appended > 0 {
            waking += usize::from(!sheet.starts.is_empty());
            quiet += usize::from(sheet.quiet);
            begun += usize::from(!sheet.tests.is_empty());
            many += usize::from(made.appended > 3);
        }
    }
    let met = [waking, quiet, begun, many];
    assert!(met.iter().all(|&number| number > 1_000), "{met:?}");
}

/// A made list stays as it is. Without one of its tests it is made complete again, or still is.
#[test]
fn made_sheets_made_again() {
    let mut random = Random::new(0x5EED_0602);
    for _ in 0..3_000 {
        let sheet = small_sheet(&mut random, 300);
        let made = make(&sheet.encode()).expect("room for the tests").sheet;
        let (same, appended) = (made.clone(), 0);
        let again = Made {
            sheet: same,
            appended,
        };
        assert_eq!(make(&made), Ok(again));
        let mut shorter = sheet_of(&made);
        if !shorter.tests.is_empty() {
            shorter.tests.remove(random.below(shorter.tests.len()));
            let bytes = shorter.encode();
            let again = make(&bytes);
            assert_eq!(again, enumeration::make(&bytes, MOST_BYTES));
            keeps_its_promises(&shorter, &again.expect("room for the tests"));
        }
    }
}

/// Pairs with 256 choices.
#[test]
fn many_choices() {
    let shape = Shape {
        states: 16,
        presses: 3,
        sounds: 16,
        boards: 1_000,
        ..SMALL
    };
    let mut random = Random::new(0x5EED_0603);
    for _ in 0..500 {
        let bytes = generator::sheet(&mut random, &shape).encode();
        assert_eq!(make(&bytes), enumeration::make(&bytes, MOST_BYTES));
    }
}

/// The same by the library's own judgements, one after the other.
fn made_by_judging(bytes: &[u8]) -> Result<Made, Refusal> {
    let mut sheet = sheet_of(bytes);
    let (tests, open_pairs) = (sheet.tests.len(), sheet.summary().open_pairs);
    while let Some(survivor) = checked_judge(&sheet.encode(), 32, 256, open_pairs)? {
        sheet.tests.push(survivor.sequence);
        if sheet.tests.len() > MOST_TESTS || sheet.encode().len() > MOST_BYTES {
            return refused(18);
        }
    }
    Ok(Made {
        sheet: sheet.encode(),
        appended: sheet.tests.len() - tests,
    })
}

/// Sheets with too many boards to try them all, with tests and without.
#[test]
fn larger_sheets() {
    let shape = Shape {
        states: 8,
        presses: 4,
        sounds: 2,
        faults: 16,
        boards: u64::MAX,
        ..SMALL
    };
    let mut random = Random::new(0x5EED_0604);
    for _ in 0..100 {
        let sheet = generator::sheet(&mut random, &shape);
        for bytes in [sheet.encode(), with_first(&sheet, 0).encode()] {
            assert_eq!(make(&bytes), made_by_judging(&bytes), "{}", spelled(&bytes));
        }
    }
}

/// The sheets kept for measuring, which need much work: one is too full. The others without their tests too.
#[test]
fn kept_sheets() {
    let folder = PathBuf::from(env!("CARGO_MANIFEST_DIR")).join("../bench/machines");
    let mut full = 0;
    for file in fs::read_dir(folder).expect("the kept sheets") {
        let bytes = fs::read(file.unwrap().path()).unwrap();
        let made = make(&bytes);
        assert_eq!(made, made_by_judging(&bytes), "{}", spelled(&bytes));
        if made == refused(18) {
            full += 1;
            continue;
        }
        let bare = with_first(&sheet_of(&bytes), 0).encode();
        assert_eq!(make(&bare), made_by_judging(&bare), "{}", spelled(&bare));
    }
    assert_eq!(full, 1);
}

/// Reading's refusals come first, whatever the buffer.
#[test]
fn refused_sheets() {
    let mut random = Random::new(0x5EED_0605);
    let mut met = [0; 13];
    for _ in 0..100_000 {
        let bytes = generator::any_bytes(&mut random);
        let Err(refusal) = read(&bytes) else { continue };
        let room = random.pick(&[0, 100, MOST_BYTES - 1, MOST_BYTES, MOST_BYTES + 1]);
        assert_eq!(
            checked_make(&bytes, room),
            Err(refusal),
            "{}",
            spelled(&bytes)
        );
        met[refusal.number] += 1;
    }
    assert!(met[1..].iter().all(|&number| number > 20), "{met:?}");
}

/// 16 before 18, and for complete lists too.
#[test]
fn short_buffers() {
    let mut random = Random::new(0x5EED_0606);
    for (name, bytes, _) in listed::verdicts() {
        for room in [0, 1, bytes.len(), MOST_BYTES - 1, random.below(MOST_BYTES)] {
            assert_eq!(
                checked_make(&bytes, room),
                refused(16),
                "{name}, {room} bytes"
            );
        }
        for room in [MOST_BYTES, MOST_BYTES + 1, 3 * MOST_BYTES] {
            let made = checked_make(&bytes, room);
            assert_eq!(
                made,
                enumeration::make(&bytes, room),
                "{name}, {room} bytes"
            );
        }
    }
}

/// Sheets with so many tests that one more fits, or none.
#[test]
fn many_tests() {
    for (name, bytes) in [
        ("P1", listed::p1()),
        ("P2", listed::p2()),
        ("P3", listed::p3()),
        ("P9", listed::p9()),
        ("P10", listed::p10()),
        ("P1-start", listed::p1_start()),
    ] {
        let sheet = sheet_of(&bytes);
        for tests in MOST_TESTS - 4..=MOST_TESTS {
            let empty = vec![vec![]; tests - sheet.tests.len()];
            at_limit(name, &sheet, &empty);
        }
    }
    assert_eq!(make(&listed::full_list()), refused(18));
}

/// Of the sheet with more tests, which no board fails that passes its own, the made sheet has the same tests
/// appended; or there is no room for them.
fn at_limit(name: &str, sheet: &Sheet, more: &[Vec<u8>]) -> bool {
    let made = enumeration::make(&sheet.encode(), MOST_BYTES).expect("room for the tests");
    let appended = &sheet_of(&made.sheet).tests[sheet.tests.len()..];
    let fuller = with_tests(sheet, more);
    let complete = with_tests(&fuller, appended);
    let (tests, bytes) = (complete.tests.len(), complete.encode());
    let fits = tests <= MOST_TESTS && bytes.len() <= MOST_BYTES;
    let expected = match fits {
        true => Ok(Made {
            sheet: bytes,
            appended: appended.len(),
        }),
        false => refused(18),
    };
    assert_eq!(make(&fuller.encode()), expected, "{name}, {tests} tests");
    fits
}

/// Tests that spell so many bytes and tell no more than the one given, which is not empty: that one
/// again and again, its front, and empty ones.
fn of_length(test: &[u8], bytes: usize) -> Vec<Vec<u8>> {
    let mut tests = vec![test.to_vec(); bytes / (1 + 2 * test.len())];
    let rest = bytes % (1 + 2 * test.len());
    if rest > 0 {
        tests.push(test[..(rest - 1) / 2].to_vec());
        tests.extend(rest.is_multiple_of(2).then(Vec::new));
    }
    tests
}

/// Sheets near 16,384 bytes: all tests to append just fit, or the last of them does not, or one before it.
#[test]
fn long_sheets() {
    let mut random = Random::new(0x5EED_0607);
    let mut tried = 0;
    while tried < 200 {
        let mut sheet = small_sheet(&mut random, 100);
        let test = generator::walk(&mut random, &sheet, MOST_PRESSES);
        sheet.tests.push(test.clone());
        let bytes = sheet.encode();
        let made = enumeration::make(&bytes, MOST_BYTES).expect("room for the tests");
        let needed = made.sheet.len() - bytes.len();
        if test.len() < MOST_PRESSES || needed == 0 {
            continue;
        }
        for beyond in [0, 1, random.between(1, needed)] {
            let more = of_length(&test, MOST_BYTES + beyond - made.sheet.len());
            let fits = at_limit(&spelled(&bytes), &sheet, &more);
            assert_eq!(fits, beyond == 0, "{beyond} bytes beyond");
        }
        tried += 1;
    }
}
