//! Sheets from tables through the library, against the writer of the tests.

use ranthelo_tests::drawing::{any_tables, write, Tables};
use ranthelo_tests::generator::{self, Random, LARGE, SMALL};
use ranthelo_tests::guarded::writing::checked_write;
use ranthelo_tests::listed;
use ranthelo_tests::reference::{read, Refusal, MOST_BYTES};

fn agree(tables: &Tables, room: usize) -> Result<Vec<u8>, Refusal> {
    let expected = write(tables, room);
    let written = checked_write(tables, room);
    assert_eq!(written, expected, "{tables:?} with {room} bytes");
    expected
}

fn refused(tables: &Tables, number: usize) {
    let refusal = Refusal { number, place: 0 };
    assert_eq!(agree(tables, 0), Err(refusal), "{tables:?}");
    assert_eq!(agree(tables, MOST_BYTES + 1), Err(refusal), "{tables:?}");
}

/// The tables give the sheet wherever it fits, and 16 elsewhere.
fn written(tables: &Tables, sheet: &[u8]) {
    for room in [sheet.len(), sheet.len() + 1, MOST_BYTES] {
        assert_eq!(agree(tables, room).as_deref(), Ok(sheet));
    }
    for room in [0, sheet.len() - 1] {
        let refusal = Refusal {
            number: 16,
            place: 0,
        };
        assert_eq!(agree(tables, room), Err(refusal));
    }
}

#[test]
fn listed_sheets() {
    for (_, bytes, _) in listed::verdicts() {
        written(&Tables::of_commands(&bytes), &bytes);
    }
    let p1 = Tables {
        size: [2, 2, 2],
        rules: vec![0, 0, 1, 1, 0, 1, 0, 0, 1, 0, 0, 1, 1, 1, 1, 0],
        faults: vec![1, 1, 1, 1],
        lengths: vec![2],
        presses: vec![0, 1],
        ..Tables::default()
    };
    written(&p1, &listed::p1());
    let p4_quiet = Tables::of_commands(&listed::p4_quiet());
    assert!(p4_quiet.quiet);
    let p1_start = Tables {
        starts: vec![1],
        ..p1
    };
    written(&p1_start, &listed::p1_start());
}

#[test]
fn every_buffer_of_a_listed_sheet() {
    let tables = Tables::of_commands(&listed::p10());
    for room in 0..100 {
        assert_eq!(agree(&tables, room).is_ok(), room >= 90);
    }
}

/// With everything wrong at once, and then one thing after another put right.
#[test]
fn refusals_come_in_order() {
    let mut tables = Tables {
        size: [17, 1, 1],
        quiet: false,
        rules: vec![0, 9, 0],
        faults: vec![0; 9],
        starts: vec![0],
        lengths: vec![0; MOST_BYTES],
        presses: vec![1],
    };
    refused(&tables, 2);
    tables.rules = vec![0, 9, 0, 0, 0, 0, 0, 0];
    refused(&tables, 2);
    tables.faults = vec![0; 8];
    refused(&tables, 2);
    tables.lengths[0] = 1;
    refused(&tables, 1);
    tables.lengths.truncate(257);
    refused(&tables, 4);
    tables.size = [2, 2, 1];
    refused(&tables, 5);
    tables.rules[1] = 1;
    refused(&tables, 6);
    tables.rules.swap(1, 5);
    refused(&tables, 7);
    tables.faults = vec![0, 0, 0, 1, 0, 0, 0, 1];
    refused(&tables, 6);
    tables.faults.truncate(4);
    refused(&tables, 7);
    tables.starts = vec![1, 1];
    refused(&tables, 6);
    tables.starts = vec![2];
    refused(&tables, 5);
    tables.starts.clear();
    tables.lengths[1] = 1;
    tables.presses = vec![0, 2];
    refused(&tables, 5);
    tables.presses[1] = 0;
    refused(&tables, 8);
    tables.lengths.truncate(256);
    refused(&tables, 11);
    tables.lengths[1] = 2;
    tables.presses.push(0);
    tables.rules = vec![0, 0, 0, 1];
    tables.faults.clear();
    refused(&tables, 9);
    tables.presses.pop();
    tables.lengths[1] = 1;
    assert!(agree(&tables, MOST_BYTES).is_ok());
    tables.size[1] = 16;
    assert!(agree(&tables, MOST_BYTES).is_ok());
    tables.faults = vec![0, 0, 0, 0];
    assert!(agree(&tables, MOST_BYTES).is_ok());
    tables.size[0] = 3;
    tables.rules.extend([1, 0, 0, 2]);
    refused(&tables, 12);
}

#[test]
fn random_tables() {
    let mut random = Random::new(0x5EED_0101);
    let mut met = [0; 17];
    for _ in 0..100_000 {
        let tables = any_tables(&mut random);
        let needed = write(&tables, usize::MAX).map_or(0, |sheet| sheet.len());
        let room = match random.below(8) {
            0 => random.below(needed + 1),
            1 => needed.saturating_sub(1),
            2 => MOST_BYTES,
            _ => needed + random.below(2),
        };
        met[agree(&tables, room).map_or_else(|refusal| refusal.number, |_| 0)] += 1;
    }
    for number in [0, 1, 2, 4, 5, 6, 7, 8, 9, 11, 12, 16] {
        assert!(met[number] > 20, "{number}: {met:?}");
    }
    assert_eq!([3, 10, 13, 14, 15].map(|number| met[number]), [0; 5]);
}

#[test]
fn tables_of_random_sheets_and_back() {
    let mut random = Random::new(0x5EED_0102);
    for i in 0..30_000 {
        let shape = if i % 5 == 0 { LARGE } else { SMALL };
        let sheet = generator::sheet(&mut random, &shape);
        let tables = Tables::of(&sheet);
        let bytes = agree(&tables, MOST_BYTES).expect("an accepted sheet");
        assert_eq!(bytes, sheet.encode());
        assert_eq!(read(&bytes).expect("an accepted sheet").sheet, sheet);
        assert_eq!(Tables::of_commands(&bytes), tables);
    }
}

fn at_limit(bytes: &[u8]) {
    written(&Tables::of_commands(bytes), bytes);
}

fn past_limit(bytes: &[u8], number: usize) {
    refused(&Tables::of_commands(bytes), number);
}

#[test]
fn limits_and_one_more() {
    at_limit(&generator::many_tests(256, 2));
    past_limit(&generator::many_tests(257, 2), 8);
    at_limit(&generator::long_test(256));
    past_limit(&generator::long_test(257), 8);
    at_limit(&generator::many_faults(256));
    past_limit(&generator::many_faults(257), 8);
    at_limit(&listed::open_pairs(32));
    past_limit(&listed::open_pairs(33), 12);
    at_limit(&generator::of_length(MOST_BYTES));
    past_limit(&generator::of_length(MOST_BYTES + 1), 1);
}

/// Tables far beyond any sheet; lengths whose sum passes 32 bits.
#[test]
fn huge_tables() {
    const HUGE: usize = 1 << 22;
    let refused_with = |change: fn(&mut Tables), number| {
        let mut tables = Tables::of_commands(&listed::p1());
        change(&mut tables);
        refused(&tables, number);
    };
    refused_with(|tables| tables.rules.resize(HUGE, 0), 1);
    refused_with(|tables| tables.faults.resize(HUGE, 0), 1);
    refused_with(|tables| tables.starts.resize(HUGE, 0), 1);
    refused_with(|tables| tables.lengths.resize(HUGE, 0), 1);
    refused_with(|tables| tables.lengths.resize(HUGE, u16::MAX), 2);
    refused_with(|tables| tables.presses.resize(HUGE, 0), 2);
    let equal = |tables: &mut Tables| {
        tables.lengths = vec![u16::MAX; 64];
        tables.presses = vec![0; 64 * usize::from(u16::MAX)];
    };
    refused_with(equal, 1);
}
