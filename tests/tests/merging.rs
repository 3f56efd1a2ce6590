//! Merge through the library, against a second program and the enumeration of all boards.

use ranthelo_tests::enumeration::Machine;
use ranthelo_tests::generator::{self, Random, Shape, LARGE, SMALL};
use ranthelo_tests::guarded::merging::{checked_merge, checked_merge_itself};
use ranthelo_tests::listed::{self, spelled};
use ranthelo_tests::merging::{self, turned, Turned};
use ranthelo_tests::reference::{read, Move, Pair, Refusal, Sheet, MOST_BYTES};

fn sheet_of(bytes: &[u8]) -> Sheet {
    read(bytes).expect("an accepted sheet").sheet
}

/// Merges both ways and each sheet with itself, and compares each with the second program.
fn agree(first: &[u8], second: &[u8], room: usize) -> Result<Vec<u8>, Turned> {
    let merged = checked_merge(first, second, room);
    let told = || format!("{}\n{}", spelled(first), spelled(second));
    assert_eq!(merged, merging::merge(first, second, room), "{}", told());
    let back = checked_merge(second, first, room);
    assert_eq!(back, merging::merge(second, first, room), "{}", told());
    let itself = checked_merge_itself(first, room);
    assert_eq!(itself, merging::merge(first, first, room), "{}", told());
    merged
}

fn merge(first: &Sheet, second: &Sheet) -> Result<Vec<u8>, Turned> {
    agree(&first.encode(), &second.encode(), MOST_BYTES)
}

/// The machine of a sheet with other faults, STARTs and tests.
fn with(sheet: &Sheet, faults: &[(Pair, Move)], starts: &[u8], tests: &[&[u8]]) -> Sheet {
    Sheet {
        faults: faults.iter().copied().collect(),
        starts: starts.iter().copied().collect(),
        tests: tests.iter().map(|test| test.to_vec()).collect(),
        ..sheet.clone()
    }
}

/// P1 with another fault, with STARTs on one side, on both, and the same on both; tests that stand twice stay twice.
#[test]
fn listed_sheets() {
    let p1 = sheet_of(&listed::p1());
    let (old, new) = (((1, 1), (1, 1)), ((0, 0), (1, 0)));
    for (faults, starts, tests) in [
        (&[new][..], &[][..], &[][..]),
        (&[old, new], &[], &[&[0, 1][..]]),
        (&[], &[1], &[&[], &[0]]),
        (&[old], &[1], &[&[0]]),
    ] {
        for own in [&[][..], &[1]] {
            let first = with(&p1, &[old], own, &[&[0, 1]]);
            let merged = merge(&first, &with(&p1, faults, starts, tests));
            let faults = [&[old], faults].concat();
            let tests = [&[&[0, 1][..]], tests].concat();
            let wanted = with(&p1, &faults, &[own, starts].concat(), &tests);
            assert_eq!(merged, Ok(wanted.encode()));
        }
    }
    for (name, first) in listed::all() {
        for (other, second) in listed::all() {
            let merged = checked_merge(&first, &second, MOST_BYTES);
            let wanted = merging::merge(&first, &second, MOST_BYTES);
            assert_eq!(merged, wanted, "{name} and {other}");
        }
    }
}

/// QUIET in both is carried over; in one of them it is another machine.
#[test]
fn quiet_sheets() {
    let (loud, quiet) = (sheet_of(&listed::p4()), sheet_of(&listed::p4_quiet()));
    let merged = merge(&quiet, &quiet).expect("one machine");
    assert!(sheet_of(&merged).quiet);
    assert_eq!(merge(&loud, &quiet), Err(turned(21)));
    assert_eq!(merge(&quiet, &loud), Err(turned(21)));
}

/// Each size, each rule and one rule less make another machine.
#[test]
fn other_machines() {
    let sheet = with(&sheet_of(&listed::p9()), &[], &[], &[]);
    let mut others = Vec::new();
    for (states, presses, sounds) in [(0, 1, 0), (0, 0, 1), (0, 1, 1)] {
        let mut other = sheet.clone();
        other.states += states;
        other.presses += presses;
        other.sounds += sounds;
        others.push(other);
    }
    for &pair in sheet.rules.keys() {
        let mut other = sheet.clone();
        let rule = other.rules.get_mut(&pair).expect("a rule");
        rule.0 = 1 - rule.0;
        others.push(other);
    }
    let mut shorter = sheet.clone();
    shorter.rules.pop_last();
    others.push(shorter);
    for other in others {
        assert_eq!(merge(&sheet, &other), Err(turned(21)), "{other:?}");
    }
}

/// A refusal on reading says which sheet it concerns, the first before the second; then 16, then 21, then the limits.
#[test]
fn order_of_refusals() {
    let good = listed::p1();
    let (short, unreachable) = (&good[..4], &[1, 2, 1, 1, 6][..]);
    let unread = |sheet, number, place| {
        let refusal = Refusal { number, place };
        Err(Turned { sheet, refusal })
    };
    for room in [0, MOST_BYTES - 1, MOST_BYTES] {
        assert_eq!(checked_merge(short, unreachable, room), unread(1, 2, 4));
        assert_eq!(checked_merge(unreachable, short, room), unread(1, 11, 4));
        assert_eq!(checked_merge(&good, unreachable, room), unread(2, 11, 4));
    }
    let full = generator::many_tests(256, 0);
    for room in [0, 100, MOST_BYTES - 1] {
        assert_eq!(agree(&good, &full, room), Err(turned(16)));
        assert_eq!(agree(&full, &full, room), Err(turned(16)));
    }
    assert_eq!(agree(&good, &full, MOST_BYTES), Err(turned(21)));
    assert_eq!(agree(&full, &full, MOST_BYTES), Err(turned(8)));
}

/// A machine of 4 states and 16 presses with a rule at every pair.
fn full_machine() -> Sheet {
    let pairs = (0..4u8).flat_map(|s| (0..16u8).map(move |x| (s, x)));
    Sheet {
        states: 4,
        presses: 16,
        sounds: 16,
        rules: pairs.map(|(s, x)| ((s, x), (0, (s + 1) % 4))).collect(),
        ..Sheet::default()
    }
}

/// The first faults of so many pairs, so many in all, the outputs from 1 on.
fn faults(sheet: &Sheet, pairs: usize, number: usize) -> Vec<(Pair, Move)> {
    let pairs: Vec<_> = sheet.pairs().take(pairs).collect();
    let faults = (0..number).map(|i| {
        let (pair, row) = (pairs[i % pairs.len()], i / pairs.len());
        (pair, (1 + (row / 4) as u8, (row % 4) as u8))
    });
    faults.collect()
}

/// The last faults go to the second sheet.
fn halves(sheet: &Sheet, faults: &[(Pair, Move)], tests: [usize; 2], length: usize) -> [Sheet; 2] {
    let (left, right) = faults.split_at(faults.len() / 2);
    let test = vec![0; length];
    let list = |number| vec![&test[..]; number];
    [
        with(sheet, left, &[], &list(tests[0])),
        with(sheet, right, &[], &list(tests[1])),
    ]
}

/// Each limit alone: what just passes and one more.
#[test]
fn limits() {
    let machine = full_machine();
    let accepted = |[a, b]: [Sheet; 2]| merge(&a, &b).map(|bytes| bytes.len());
    for number in [254, 255, 256] {
        let merged = accepted(halves(&machine, &faults(&machine, 8, number), [0, 0], 0));
        assert_eq!(merged, Ok(4 + 5 * 64 + 5 * number + 1));
    }
    for number in [257, 258, 400] {
        let merged = accepted(halves(&machine, &faults(&machine, 8, number), [0, 0], 0));
        assert_eq!(merged, Err(turned(8)));
    }
    for (tests, passes) in [([128, 128], true), ([256, 0], true), ([0, 257 - 1], true)] {
        assert_eq!(accepted(halves(&machine, &[], tests, 0)).is_ok(), passes);
    }
    for tests in [[128, 129], [129, 128], [256, 1], [1, 256], [256, 256]] {
        assert_eq!(accepted(halves(&machine, &[], tests, 0)), Err(turned(8)));
    }
    for (pairs, start, passes) in [
        (32, false, true),
        (33, false, false),
        (31, true, true),
        (32, true, false),
    ] {
        let [first, mut second] = halves(&machine, &faults(&machine, pairs, pairs), [0, 0], 0);
        second.starts.extend(start.then_some(3));
        let merged = merge(&first, &second);
        assert_eq!(merged.is_ok(), passes, "{pairs} {start}");
        assert!(passes || merged == Err(turned(12)));
    }
}

/// Sheets that merge to so many bytes: tests of 200 presses in both, and one of the rest.
fn of_length(machine: &Sheet, bytes: usize) -> [Sheet; 2] {
    let mut left = bytes - machine.encode().len();
    let mut tests = vec![];
    while left > 0 {
        let length = ((left - 1) / 2).min(200);
        tests.push(vec![0; length]);
        left -= 1 + 2 * length;
    }
    let half = tests.len() / 2;
    let mut sheets = [machine.clone(), machine.clone()];
    sheets[1].tests = tests.split_off(half);
    sheets[0].tests = tests;
    sheets
}

#[test]
fn longest_sheets() {
    let machine = full_machine();
    for bytes in MOST_BYTES - 6..=MOST_BYTES {
        let [a, b] = of_length(&machine, bytes);
        assert_eq!(merge(&a, &b).map(|merged| merged.len()), Ok(bytes));
    }
    for bytes in [MOST_BYTES + 1, MOST_BYTES + 2, 24_000] {
        let [a, b] = of_length(&machine, bytes);
        assert_eq!(merge(&a, &b), Err(turned(1)), "{bytes}");
    }
}

/// Over several limits at once: 8 before 12 before 1.
#[test]
fn limits_together() {
    let machine = full_machine();
    // in order, so that each half has the faults of some pairs alone
    let rows = |pairs, number| {
        let mut rows = faults(&machine, pairs, number);
        rows.sort_unstable();
        rows
    };
    for (faults, tests, length, number) in [
        (rows(40, 257), [0, 0], 0, 8),
        (rows(8, 257), [60, 60], 100, 8),
        (rows(40, 40), [128, 129], 0, 8),
        (rows(40, 40), [60, 60], 100, 12),
        (rows(8, 8), [60, 60], 100, 1),
    ] {
        let mut sheets = halves(&machine, &faults, tests, length);
        for sheet in &mut sheets {
            // no sheet alone has over 32 open pairs
            assert!(sheet.summary().open_pairs <= 32, "{:?}", sheet.summary());
            assert!(sheet.encode().len() <= MOST_BYTES);
        }
        let [a, b] = sheets;
        assert_eq!(merge(&a, &b), Err(turned(number)));
    }
}

/// Two sheets of the machine of a sheet: each fault, START and test goes to one of them or to both.
fn divided(random: &mut Random, sheet: &Sheet) -> [Sheet; 2] {
    let mut sheets = [with(sheet, &[], &[], &[]), with(sheet, &[], &[], &[])];
    for &fault in &sheet.faults {
        for i in sides(random) {
            sheets[i].faults.insert(fault);
        }
    }
    for &start in &sheet.starts {
        for i in sides(random) {
            sheets[i].starts.insert(start);
        }
    }
    for test in &sheet.tests {
        for i in sides(random) {
            sheets[i].tests.push(test.clone());
        }
    }
    sheets
}

fn sides(random: &mut Random) -> Vec<usize> {
    random.pick(&[&[0][..], &[1], &[0, 1]]).to_vec()
}

/// If the merged list is complete, each departing board of the sheet fails some test in it.
fn finds_departing_boards(sheet: &Sheet, tests: &[Vec<u8>]) {
    let longer = Sheet {
        tests: tests.to_vec(),
        ..sheet.clone()
    };
    assert_eq!(Machine::new(&longer).judge(), None, "{longer:?}");
}

#[test]
fn random_sheets() {
    let mut random = Random::new(0x5EED_1001);
    let (mut complete, mut waking, mut quiet, mut shared) = (0, 0, 0, 0);
    for _ in 0..20_000 {
        let shape = Shape {
            boards: 300,
            ..SMALL
        };
        let sheet = generator::sheet(&mut random, &shape);
        let [first, second] = divided(&mut random, &sheet);
        let room = MOST_BYTES + random.below(3);
        let merged = agree(&first.encode(), &second.encode(), room);
        let merged = sheet_of(&merged.expect("within the limits"));
        assert_eq!(merged.faults, sheet.faults);
        assert_eq!(merged.starts, sheet.starts);
        assert_eq!(merged.tests, [&first.tests[..], &second.tests].concat());
        if Machine::new(&merged).judge().is_none() {
            finds_departing_boards(&first, &merged.tests);
            finds_departing_boards(&second, &merged.tests);
            complete += usize::from(!merged.faults.is_empty());
        }
        waking += usize::from(!merged.starts.is_empty());
        quiet += usize::from(merged.quiet);
        shared += usize::from(!first.faults.is_disjoint(&second.faults));
    }
    let met = [complete, waking, quiet, shared];
    assert!(met.iter().all(|&number| number > 1_000), "{met:?}");
}

/// Sheets of any size, now and then over a limit together.
#[test]
fn larger_sheets() {
    let mut random = Random::new(0x5EED_1002);
    let mut numbers = std::collections::BTreeMap::new();
    for _ in 0..3_000 {
        let sheet = generator::sheet(&mut random, &LARGE);
        let [first, mut second] = divided(&mut random, &sheet);
        for (&pair, &(sound, next)) in &sheet.rules {
            if random.chance(15) && second.summary().open_pairs < 31 {
                let other = ((sound + 1) % sheet.sounds, next);
                if other.0 != sound {
                    second.faults.insert((pair, other));
                }
            }
        }
        let merged = agree(&first.encode(), &second.encode(), MOST_BYTES);
        let number = merged.map_or_else(|turned| turned.refusal.number, |_| 0);
        *numbers.entry(number).or_insert(0) += 1;
    }
    assert!(numbers[&0] > 500 && numbers[&12] > 100, "{numbers:?}");
}

/// Damaged sheets and other bytes, in either place, with any room.
#[test]
fn damaged_sheets() {
    let mut random = Random::new(0x5EED_1003);
    for _ in 0..30_000 {
        let sheet = generator::sheet(&mut random, &SMALL);
        let [first, second] = divided(&mut random, &sheet);
        let mut pair = [first.encode(), second.encode()];
        let side = random.below(2);
        pair[side] = match random.chance(70) {
            true => generator::damaged(&mut random, &pair[side]),
            false => generator::any_bytes(&mut random),
        };
        let room = random.pick(&[0, 40, MOST_BYTES - 1, MOST_BYTES, MOST_BYTES + 5]);
        let _ = agree(&pair[0], &pair[1], room);
    }
}
