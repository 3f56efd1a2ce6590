//! Read and one test's part through the library, against the reference reader.

use ranthelo_tests::generator::{self, Random};
use ranthelo_tests::guarded::reading::{checked_read, checked_test_part};
use ranthelo_tests::listed::{self, spelled};
use ranthelo_tests::reference::{
    read, Refusal, Summary, END, FAULT, MOST_BYTES, QUIET, RULE, SIZE, START, TEST,
};

/// Both readers agree on a sheet.
fn agree(bytes: &[u8]) -> Result<Summary, Refusal> {
    let expected = read(bytes).map(|reading| reading.sheet.summary());
    assert_eq!(checked_read(bytes), expected, "{}", spelled(bytes));
    expected
}

/// They agree on the parts of these tests.
fn agree_on_parts(bytes: &[u8], tests: impl IntoIterator<Item = usize>) {
    let reading = read(bytes);
    for test in tests {
        let expected = match &reading {
            Ok(reading) => reading.part(test),
            Err(refusal) => Err(*refusal),
        };
        let part = checked_test_part(bytes, test);
        assert_eq!(part, expected, "test {test} of {}", spelled(bytes));
    }
}

fn refused(bytes: &[u8], number: usize, place: usize) {
    assert_eq!(agree(bytes), Err(Refusal { number, place }));
}

#[test]
fn listed_sheets() {
    for ((name, bytes), (_, expected)) in listed::all().into_iter().zip(listed::readings()) {
        assert_eq!(agree(&bytes), expected, "{name}");
    }
}

#[test]
fn every_part_of_every_test() {
    for (_, bytes) in listed::all() {
        agree_on_parts(&bytes, (0..260).chain([1 << 32, usize::MAX]));
    }
}

#[test]
fn every_prefix_of_the_listed_sheets() {
    for (_, bytes) in listed::all() {
        for length in 0..bytes.len() {
            agree(&bytes[..length]).expect_err("a cut sheet is accepted");
            agree_on_parts(&bytes[..length], [0]);
        }
    }
}

#[test]
fn every_single_byte_change_of_the_listed_sheets() {
    for (_, mut bytes) in listed::all() {
        for place in 0..bytes.len() {
            let old = bytes[place];
            for new in (0..=255).filter(|&new| new != old) {
                bytes[place] = new;
                if let Ok(summary) = agree(&bytes) {
                    agree_on_parts(&bytes, [0, summary.tests]);
                }
            }
            bytes[place] = old;
        }
    }
}

#[test]
fn random_and_damaged_sheets() {
    let mut random = Random::new(0x5EED_0003);
    let mut met = [0; 13];
    for _ in 0..150_000 {
        let bytes = generator::any_bytes(&mut random);
        let reading = agree(&bytes);
        let number = reading.map_or_else(|refusal| refusal.number, |_| 0);
        met[number] += 1;
        let tests = reading.map_or(0, |summary| summary.tests);
        agree_on_parts(&bytes, [0, tests.saturating_sub(1), tests]);
    }
    assert!(met.iter().all(|&times| times > 0), "{met:?}");
    assert!(met[0] > 50_000, "{met:?}");
}

#[test]
fn thirty_two_open_pairs_and_one_more() {
    assert_eq!(agree(&listed::open_pairs(32)).unwrap().open_pairs, 32);
    refused(&listed::open_pairs(33), 12, 19);
}

/// Where a board wakes counts toward the 32.
#[test]
fn open_pairs_with_a_start() {
    let starting = |open: usize| {
        let mut sheet = read(&listed::open_pairs(open)).unwrap().sheet;
        sheet.starts = [1, 2].into();
        sheet.encode()
    };
    assert_eq!(agree(&starting(31)).unwrap().open_pairs, 32);
    refused(&starting(32), 12, 19 + 5 + 4);
}

#[test]
fn quiet_and_its_refusals() {
    let p4 = listed::p4();
    assert_eq!(
        agree(&listed::after_size(p4.clone(), &[QUIET]))
            .unwrap()
            .open_pairs,
        1
    );
    refused(&listed::after_size(p4.clone(), &[QUIET, QUIET]), 3, 5);
    refused(&[&p4[..9], &[QUIET], &p4[9..]].concat(), 3, 9);
    refused(&[&[QUIET], &p4[..]].concat(), 3, 0);
    refused(&listed::after_faults(p4, &[QUIET]), 3, 24);
    assert_eq!(agree(&listed::quiet_pairs()).unwrap().open_pairs, 0);
    assert!(agree(&[SIZE, 1, 1, 1, QUIET, END]).is_ok());
}

#[test]
fn starts_and_their_refusals() {
    let start = |commands: &[u8]| listed::after_faults(listed::p1(), commands);
    assert_eq!(agree(&start(&[START, 1])).unwrap().open_pairs, 2);
    refused(&start(&[START, 2]), 5, 29);
    refused(&start(&[START, 1, START, 1]), 6, 31);
    refused(&start(&[START, 1, START, 0]), 6, 31);
    refused(&start(&[START, 0]), 7, 29);
    refused(&start(&[START, 1])[..30], 2, 29);
    refused(&start(&[START, 1, FAULT, 1, 1, 1, 1]), 3, 31);
    refused(&start(&[START, 1, RULE, 1, 1, 1, 1]), 3, 31);
    refused(&start(&[TEST, START, 1]), 3, 30);
    refused(&[SIZE, 1, 1, 1, START, 0, END], 7, 4);
    refused(&[START, 1], 3, 0);
}

#[test]
fn tests_and_one_too_many() {
    for presses in 0..3 {
        let bytes = generator::many_tests(256, presses);
        assert_eq!(agree(&bytes).unwrap().tests, 256);
        let bytes = generator::many_tests(257, presses);
        refused(&bytes, 8, 9 + 256 * (1 + 2 * presses));
    }
}

#[test]
fn presses_and_one_too_many() {
    assert!(agree(&generator::long_test(256)).is_ok());
    agree_on_parts(&generator::long_test(256), 0..3);
    refused(&generator::long_test(257), 8, 9 + 2 + 256 * 2);
}

#[test]
fn faults_and_one_too_many() {
    assert_eq!(agree(&generator::many_faults(256)).unwrap().faults, 256);
    refused(&generator::many_faults(257), 8, 4 + (16 + 256) * 5);
    let one_pair = agree(&generator::faults_at_one_pair(255)).unwrap();
    assert_eq!((one_pair.faults, one_pair.open_pairs), (255, 1));
}

#[test]
fn bytes_and_one_too_many() {
    assert!(agree(&generator::of_length(MOST_BYTES)).is_ok());
    refused(&generator::of_length(MOST_BYTES + 1), 1, MOST_BYTES);
    refused(&[0; MOST_BYTES + 1], 1, MOST_BYTES);
    refused(&[0; 4 * MOST_BYTES], 1, MOST_BYTES);
}
