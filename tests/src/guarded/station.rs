//! The bench station. Each gives the state's numbers after the call; a refusal must leave them.

use super::memory::{bytes, Answer, Guarded};
use crate::enumeration::Failure;
use crate::reference::Refusal;
use crate::station::Step;
use ranthelo::raw::{station_begin, station_change, station_next, station_sound};

const GUARD_NUMBER: usize = usize::MAX - 0xA7;

type Numbers = [usize; 4];

fn lent(state: Numbers) -> Guarded<usize> {
    Guarded::new(&state, GUARD_NUMBER)
}

fn lend(state: &mut Guarded<usize>) -> &mut Numbers {
    state.content_mut().try_into().expect("four numbers")
}

/// The numbers left, which nothing but an answer changes.
fn left<T>(state: &Guarded<usize>, result: &Result<T, Refusal>) -> Numbers {
    let numbers = state.front(4).try_into().expect("four numbers");
    if result.is_err() {
        state.untouched();
    }
    numbers
}

pub fn checked_begin(sheet: &[u8], state: Numbers) -> (Result<(), Refusal>, Numbers) {
    let (sheet, mut state) = (bytes(sheet), lent(state));
    let mut answer = Answer::<2>::new();
    station_begin(sheet.content(), lend(&mut state), answer.lend());
    sheet.untouched();
    let result = answer.result().map(|_| ());
    let left = left(&state, &result);
    (result, left)
}

pub fn checked_next(sheet: &[u8], state: Numbers) -> (Result<Step, Refusal>, Numbers) {
    let (sheet, mut state) = (bytes(sheet), lent(state));
    let mut answer = Answer::new();
    station_next(sheet.content(), lend(&mut state), answer.lend());
    sheet.untouched();
    let result = answer.result().map(step);
    let left = left(&state, &result);
    (result, left)
}

fn step(words: &[usize]) -> Step {
    match *words {
        [0, test, 0] => Step::Pulse { test },
        [1, press, position] => Step::Press {
            press: press.try_into().expect("a press is a byte"),
            position,
        },
        [2, 0, 0] => Step::Pass,
        [3, test, position] => Step::Failure(Failure { test, position }),
        _ => panic!("no step: {words:?}"),
    }
}

pub fn checked_sound(
    sheet: &[u8],
    state: Numbers,
    sound: u8,
) -> (Result<Option<Failure>, Refusal>, Numbers) {
    let (sheet, mut state) = (bytes(sheet), lent(state));
    let mut answer = Answer::new();
    station_sound(sheet.content(), lend(&mut state), sound, answer.lend());
    sheet.untouched();
    let result = answer.result().map(|words| match *words {
        [0, 0, 0] => None,
        [3, test, position] => Some(Failure { test, position }),
        _ => panic!("neither taken nor a failure: {words:?}"),
    });
    let left = left(&state, &result);
    (result, left)
}

pub fn checked_change(sheet: &[u8], changed: &[u8], state: Numbers) -> Result<(), Refusal> {
    let (sheet, changed, mut state) = (bytes(sheet), bytes(changed), lent(state));
    let mut answer = Answer::<2>::new();
    let numbers = lend(&mut state);
    station_change(sheet.content(), changed.content(), numbers, answer.lend());
    sheet.untouched();
    changed.untouched();
    state.untouched();
    answer.result().map(|_| ())
}
