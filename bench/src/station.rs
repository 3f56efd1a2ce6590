//! The bench station: one lock driven through a whole list, each call reading the sheet anew.

use crate::table::Table;
use ranthelo::raw;
use ranthelo_bench::plain::{self, pair, Tables};
use ranthelo_tests::listed;
use ranthelo_tests::reference::{PRESS, TEST};
use std::hint::black_box;

pub fn measure(table: &mut Table) {
    for (case, sheet) in [
        ("P2 driven to pass", listed::p2()),
        ("P10 driven to pass", listed::p10()),
    ] {
        let steps = in_plain_rust(&sheet);
        assert_eq!(with_library(&sheet), steps);
        table.measure(
            "station",
            case,
            || {
                black_box(with_library(black_box(&sheet)));
            },
            || {
                black_box(in_plain_rust(black_box(&sheet)));
            },
        );
    }
}

/// A lock that gives every specified sound, until pass: how many steps that took. Begin is Judge, which is measured by
/// itself.
fn with_library(sheet: &[u8]) -> usize {
    let tables = plain::load(sheet).expect("an accepted sheet");
    let (mut state, mut answer) = ([0; 4], [0; 5]);
    let (mut steps, mut reached) = (0, 0);
    loop {
        raw::station_next(sheet, &mut state, &mut answer);
        steps += 1;
        match answer[2] {
            0 => reached = 0,
            1 => {
                let (sound, next) = tables.rules[pair(reached, answer[3] as u8)];
                reached = next;
                raw::station_sound(sheet, &mut state, sound, &mut answer);
                assert_eq!(answer, [0; 5]);
            }
            _ => return steps,
        }
    }
}

/// The same: each step reads the sheet and looks for its press, each sound reads it and walks the test.
fn in_plain_rust(sheet: &[u8]) -> usize {
    let (mut steps, mut begun, mut position) = (0, 0, 0);
    loop {
        let tables = plain::load(sheet).expect("an accepted sheet");
        steps += 1;
        let press = presses(&tables, begun).nth(position);
        match press {
            Some(_) => {
                let tables = plain::load(sheet).expect("an accepted sheet");
                let walk = presses(&tables, begun).take(position + 1);
                let end = walk.fold((0, 0), |(_, state), press| tables.rules[pair(state, press)]);
                black_box(end);
                position += 1;
            }
            None if begun < tables.summary.tests => (begun, position) = (begun + 1, 0),
            None => return steps,
        }
    }
}

/// The presses of the test begun last, of so many.
fn presses<'a>(tables: &'a Tables, begun: usize) -> impl Iterator<Item = u8> + 'a {
    let (mut test, mut place) = (0, 0);
    let suite = tables.suite;
    std::iter::from_fn(move || loop {
        match *suite.get(place)? {
            TEST => {
                test += 1;
                place += 1;
            }
            PRESS if test == begun => {
                place += 2;
                return Some(suite[place - 1]);
            }
            PRESS => place += 2,
            _ => return None,
        }
        if test > begun {
            return None;
        }
    })
}
