//! Renumber through the library, against a second program and against all renamings.

use ranthelo_tests::enumeration::Machine;
use ranthelo_tests::generator::{self, Random, Shape, LARGE, SMALL};
use ranthelo_tests::guarded::judge::checked_judge;
use ranthelo_tests::guarded::making::checked_make;
use ranthelo_tests::guarded::writing::checked_renumber;
use ranthelo_tests::listed::{self, hexadecimal, spelled};
use ranthelo_tests::numbering::{renamed, renamings, renumber};
use ranthelo_tests::reference::{read, Refusal, Sheet, MOST_BYTES, MOST_FAULTS};

fn sheet_of(bytes: &[u8]) -> Sheet {
    read(bytes).expect("an accepted sheet").sheet
}

/// What both programs answer.
fn agree(bytes: &[u8], room: usize) -> Result<Vec<u8>, Refusal> {
    let converted = checked_renumber(bytes, room);
    let told = spelled(bytes);
    assert_eq!(converted, renumber(bytes, room), "{room} bytes: {told}");
    converted
}

/// The form of an accepted sheet, which is as long and its own form.
fn form(sheet: &Sheet) -> Vec<u8> {
    let bytes = sheet.encode();
    let form = agree(&bytes, bytes.len()).expect("room for the sheet");
    assert_eq!(form.len(), bytes.len());
    assert_eq!(agree(&form, form.len()), Ok(form.clone()));
    form
}

/// States other than 0 in any order.
fn any_names(random: &mut Random, states: u8) -> Vec<u8> {
    let mut names: Vec<u8> = (0..states).collect();
    random.shuffle(&mut names[1..]);
    names
}

#[test]
fn listed_sheets() {
    for (name, bytes) in listed::all() {
        if let Ok(converted) = agree(&bytes, MOST_BYTES) {
            assert_eq!(form(&sheet_of(&bytes)), converted, "{name}");
        }
    }
    for (name, bytes) in [
        ("P1", listed::p1()),
        ("P6", listed::p6()),
        ("P9", listed::p9()),
        ("P10", listed::p10()),
    ] {
        assert_eq!(form(&sheet_of(&bytes)), bytes, "{name} is in the form");
    }
}

/// From a third program; the proved check of the definitions has the same bytes.
#[test]
fn states_exchanged() {
    let exchanged = renamed(&sheet_of(&listed::p9()), &[0, 2, 1, 3]);
    assert_ne!(exchanged.encode(), listed::p9());
    assert_eq!(form(&exchanged), listed::p9());

    let waking = "01 04 02 02  02 00 00 00 03  02 00 01 00 02  02 01 00 01 00  02 02 00 00 01  02 03 00 01 02
        03 02 00 00 02  03 02 00 00 03  03 03 00 01 01  07 02  07 03  04 05 00 05 00 06";
    let form_of_it = "01 04 02 02  02 00 00 00 01  02 00 01 00 02  02 01 00 01 02  02 02 00 00 03  02 03 00 01 00
        03 01 00 01 03  03 02 00 00 01  03 02 00 00 02  07 01  07 02  04 05 00 05 00 06";
    let sheet = sheet_of(&hexadecimal(waking));
    assert_eq!(form(&sheet), hexadecimal(form_of_it));
}

/// One form for all renamings of a sheet, and the same verdict: complete, or a survivor.
#[test]
fn all_renamings_of_small_sheets() {
    let mut random = Random::new(0x5EED_1201);
    let shape = Shape {
        boards: 300,
        ..SMALL
    };
    let (mut complete, mut incomplete, mut waking, mut quiet) = (0, 0, 0, 0);
    for _ in 0..1_500 {
        let sheet = generator::sheet(&mut random, &shape);
        let first = form(&sheet);
        let verdict = Machine::new(&sheet).judge().is_none();
        for names in renamings(sheet.states) {
            let other = renamed(&sheet, &names);
            assert_eq!(form(&other), first, "{}", spelled(&other.encode()));
        }
        assert_eq!(Machine::new(&sheet_of(&first)).judge().is_none(), verdict);
        complete += usize::from(verdict);
        incomplete += usize::from(!verdict);
        waking += usize::from(sheet.starts.len() > 1);
        quiet += usize::from(sheet.quiet);
    }
    let met = [complete, incomplete, waking, quiet];
    assert!(met.iter().all(|&number| number > 100), "{met:?}");
}

/// Equal bytes exactly when one is the other with states renamed.
#[test]
fn sheets_that_differ() {
    let mut random = Random::new(0x5EED_1202);
    let shape = Shape {
        states: 4,
        presses: 2,
        sounds: 2,
        faults: 2,
        tests: 1,
        test_length: 1,
        ..SMALL
    };
    let (mut alike, mut other) = (0, 0);
    for _ in 0..30_000 {
        let sheet = generator::sheet(&mut random, &shape);
        let near = nearby(&mut random, &sheet);
        let same = renamings(sheet.states)
            .iter()
            .any(|names| renamed(&sheet, names) == near);
        assert_eq!(
            form(&sheet) == form(&near),
            same,
            "{}",
            spelled(&near.encode())
        );
        alike += usize::from(same);
        other += usize::from(!same);
    }
    assert!(alike > 1_000 && other > 1_000, "{alike}, {other}");
}

/// An accepted sheet that is the sheet renamed, but perhaps for one RULE, FAULT or START.
fn nearby(random: &mut Random, sheet: &Sheet) -> Sheet {
    loop {
        let names = any_names(random, sheet.states);
        let mut near = renamed(sheet, &names);
        let state = random.below(sheet.states.into()) as u8;
        let pair = random.below(near.rules.len().max(1));
        match random.below(4) {
            0 => {
                if let Some(rule) = near.rules.values_mut().nth(pair) {
                    rule.1 = state;
                }
            }
            1 => {
                if let Some((&pair, &(o, _))) = near.rules.iter().nth(pair) {
                    near.faults.insert((pair, (o, state)));
                }
            }
            2 => {
                near.starts.insert(state);
            }
            _ => {}
        }
        if let Ok(reading) = read(&near.encode()) {
            return reading.sheet;
        }
    }
}

#[test]
fn random_renamings_of_large_sheets() {
    let mut random = Random::new(0x5EED_1203);
    for _ in 0..3_000 {
        let sheet = generator::sheet(&mut random, &LARGE);
        let first = form(&sheet);
        for _ in 0..3 {
            let names = any_names(&mut random, sheet.states);
            assert_eq!(form(&renamed(&sheet, &names)), first);
        }
        assert_eq!(sheet_of(&first).tests, sheet.tests);
    }
}

/// A complete list is complete afterwards.
#[test]
fn made_lists_stay_complete() {
    let mut random = Random::new(0x5EED_1204);
    for _ in 0..2_000 {
        let shape = Shape {
            boards: 2_000,
            ..SMALL
        };
        let sheet = generator::sheet(&mut random, &shape);
        let made = checked_make(&sheet.encode(), MOST_BYTES).expect("room for the tests");
        let names = any_names(&mut random, sheet.states);
        let form = form(&renamed(&sheet_of(&made.sheet), &names));
        let judged = checked_judge(&form, 32, 256, 0);
        assert_eq!(judged, Ok(None), "{}", spelled(&form));
    }
}

/// Sixteen states in a row, named downwards; as many FAULTs as there may be, at one pair and over all of them; sixteen
/// presses and sounds.
#[test]
fn limits() {
    let mut random = Random::new(0x5EED_1205);
    for spread in [1, 4, 16] {
        let mut sheet = Sheet {
            states: 16,
            presses: 16,
            sounds: 16,
            quiet: true,
            ..Sheet::default()
        };
        for s in 0..16 {
            sheet.rules.insert((s, 15), (15, (s + 15) % 16));
        }
        while sheet.faults.len() < MOST_FAULTS - usize::from(spread == 1) {
            let pair = (random.below(spread) as u8, 15);
            let to = (random.below(16) as u8, random.below(16) as u8);
            if sheet.rules[&pair] != to {
                sheet.faults.insert((pair, to));
            }
        }
        sheet.starts = (1..16).collect();
        sheet.tests = vec![vec![15; 256]; 2];
        let form = sheet_of(&form(&sheet));
        assert!((0..16).all(|s| form.rules[&(s, 15)] == (15, (s + 1) % 16)));
        assert_eq!((form.starts, form.tests), (sheet.starts, sheet.tests));
    }
    let full = generator::of_length(MOST_BYTES);
    assert_eq!(form(&sheet_of(&full)), full);
    let refusal = agree(&generator::of_length(MOST_BYTES + 1), MOST_BYTES + 1);
    assert_eq!(refusal.expect_err("a long sheet").number, 1);
}

#[test]
fn refusals_come_in_order() {
    let short = Err(Refusal {
        number: 16,
        place: 0,
    });
    let bytes = listed::p9();
    for room in 0..bytes.len() {
        assert_eq!(agree(&bytes, room), short);
    }
    for room in [bytes.len(), bytes.len() + 1, MOST_BYTES] {
        assert!(agree(&bytes, room).is_ok());
    }
    for cut in 0..bytes.len() {
        let refusal = agree(&bytes[..cut], 0).expect_err("a cut sheet");
        assert_eq!(agree(&bytes[..cut], MOST_BYTES), Err(refusal));
        assert_ne!(refusal.number, 16);
    }
    let long = vec![1; MOST_BYTES + 1];
    let refusal = agree(&long, 0).expect_err("a long sheet");
    assert_eq!((refusal.number, refusal.place), (1, MOST_BYTES));
}

#[test]
fn damaged_sheets() {
    let mut random = Random::new(0x5EED_1206);
    let (mut accepted, mut refused) = (0, 0);
    for i in 0..40_000 {
        let shape = if i % 20 == 0 { &LARGE } else { &SMALL };
        let sheet = generator::sheet(&mut random, shape);
        let bytes = generator::damaged(&mut random, &sheet.encode());
        let room = bytes.len() + random.below(3);
        match agree(&bytes, room) {
            Ok(_) => accepted += 1,
            Err(_) => refused += 1,
        }
    }
    assert!(accepted > 1_000 && refused > 1_000, "{accepted}, {refused}");
}
