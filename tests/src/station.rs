//! The bench station, written from document 02 (Point 13) alone.

use crate::enumeration::{Failure, Machine};
use crate::reference::{read, Refusal, Sheet};

/// How many tests have begun, how many sounds of the last of them were taken, whether a press is due, the verdict.
#[derive(Clone, Copy, Debug, PartialEq, Eq)]
pub struct State {
    pub begun: usize,
    pub position: usize,
    pub due: bool,
    pub verdict: Verdict,
}

#[derive(Clone, Copy, Debug, PartialEq, Eq)]
pub enum Verdict {
    Open,
    Pass,
    Failure,
}

/// A next step; a failure is told by a sound too.
#[derive(Clone, Copy, Debug, PartialEq, Eq)]
pub enum Step {
    Pulse { test: usize },
    Press { press: u8, position: usize },
    Pass,
    Failure(Failure),
}

impl State {
    /// The state of any four numbers: a verdict goes before a press that is due.
    pub fn of([begun, position, due, verdict]: [usize; 4]) -> Self {
        let verdict = match verdict {
            0 => Verdict::Open,
            1 => Verdict::Pass,
            _ => Verdict::Failure,
        };
        State {
            begun,
            position,
            due: due != 0 && verdict == Verdict::Open,
            verdict,
        }
    }

    pub fn numbers(self) -> [usize; 4] {
        let verdict = match self.verdict {
            Verdict::Open => 0,
            Verdict::Pass => 1,
            Verdict::Failure => 2,
        };
        [self.begun, self.position, self.due.into(), verdict]
    }

    /// The current test is the last begun, if any.
    fn current(self, sheet: &Sheet) -> Option<&[u8]> {
        let test = sheet.tests.get(self.begun.checked_sub(1)?)?;
        Some(test)
    }

    /// The press at the position of the current test.
    fn press(self, sheet: &Sheet) -> Option<u8> {
        self.current(sheet)?.get(self.position).copied()
    }

    fn failure(self) -> Failure {
        Failure {
            test: self.begun.saturating_sub(1),
            position: self.position,
        }
    }
}

fn refuse<T>(number: usize) -> Result<T, Refusal> {
    Err(Refusal { number, place: 0 })
}

/// A first or a changed sheet, whose list is complete.
fn suited(bytes: &[u8]) -> Result<Sheet, Refusal> {
    let sheet = read(bytes)?.sheet;
    match Machine::new(&sheet).judge() {
        Some(_) => refuse(22),
        None => Ok(sheet),
    }
}

pub fn begin(bytes: &[u8]) -> Result<State, Refusal> {
    suited(bytes)?;
    Ok(State::of([0; 4]))
}

pub fn next(bytes: &[u8], state: State) -> Result<(Step, State), Refusal> {
    let sheet = read(bytes)?.sheet;
    Ok(match (state.verdict, state.press(&sheet)) {
        (Verdict::Pass, _) => (Step::Pass, state),
        (Verdict::Failure, _) => (Step::Failure(state.failure()), state),
        (Verdict::Open, Some(press)) => {
            let position = state.position;
            (
                Step::Press { press, position },
                State { due: true, ..state },
            )
        }
        (Verdict::Open, None) => after_test(&sheet, state),
    })
}

/// The next test's pulse, or pass.
fn after_test(sheet: &Sheet, state: State) -> (Step, State) {
    let test = state.begun;
    if test < sheet.tests.len() {
        (Step::Pulse { test }, State::of([test + 1, 0, 0, 0]))
    } else {
        let verdict = Verdict::Pass;
        let due = false;
        (
            Step::Pass,
            State {
                due,
                verdict,
                ..state
            },
        )
    }
}

/// The sound that the RULEs give at the last of these presses.
fn specified(sheet: &Sheet, presses: &[u8]) -> u8 {
    let (mut state, mut sound) = (0, 0);
    for &press in presses {
        (sound, state) = sheet.rules[&(state, press)];
    }
    sound
}

pub fn sound(bytes: &[u8], state: State, sound: u8) -> Result<(Option<Failure>, State), Refusal> {
    let sheet = read(bytes)?.sheet;
    let given = state
        .current(&sheet)
        .and_then(|test| test.get(..=state.position));
    let Some(given) = given.filter(|_| state.due && sound < sheet.sounds) else {
        return refuse(24);
    };
    let due = false;
    if sound == specified(&sheet, given) {
        let position = state.position + 1;
        return Ok((
            None,
            State {
                position,
                due,
                ..state
            },
        ));
    }
    let verdict = Verdict::Failure;
    Ok((
        Some(state.failure()),
        State {
            due,
            verdict,
            ..state
        },
    ))
}

/// Whether the station goes on with a changed sheet.
pub fn change(bytes: &[u8], changed: &[u8], state: State) -> Result<(), Refusal> {
    let changed = suited(changed)?;
    let goes_on = |sheet: &Sheet| {
        let size = |sheet: &Sheet| (sheet.states, sheet.presses, sheet.sounds, sheet.quiet);
        let begun = |sheet: &Sheet| -> Vec<Vec<u8>> {
            sheet.tests.iter().take(state.begun).cloned().collect()
        };
        state.verdict == Verdict::Open
            && size(sheet) == size(&changed)
            && sheet.rules == changed.rules
            && begun(sheet) == begun(&changed)
    };
    match read(bytes) {
        Ok(reading) if goes_on(&reading.sheet) => Ok(()),
        _ => refuse(23),
    }
}
