//! The bench station: drives one lock through a sheet's list.

use crate::operations::rest;
use crate::{Failure, Refusal, raw, read};

/// What is to be done next with the lock, or the verdict on it.
#[derive(Clone, Copy, Debug, PartialEq, Eq)]
#[must_use]
pub enum Step {
    /// Wake the lock anew: a test begins.
    Pulse {
        /// Its number.
        test: usize,
    },
    /// Press, and tell the sound. The press is due until then; given again, it is the same one, which the lock gets
    /// once.
    Press {
        /// Which press.
        press: u8,
        /// Its position in the test.
        position: usize,
    },
    /// No step is left, and every sound was the specified one.
    Pass,
    /// The first wrong sound.
    Failure(Failure),
}

/// A station that drives one lock through the list of a sheet, which is complete.
///
/// If the lock gets each pulse and press once, in order and nothing else, and gives the sounds that are told, then a
/// lock that is passed and behaves as a board of the station's sheet gives every specified sound on every list of fresh
/// starts and presses.
///
/// ```
/// use ranthelo::{Station, Step};
///
/// let sheet = ranthelo::text::assemble(b"SIZE 1 1 2\n RULE 0 0 0 0\n FAULT 0 0 1 0\n TEST 0")?;
/// let mut station = Station::begin(&sheet)?;
/// assert_eq!(station.next_step(), Step::Pulse { test: 0 });
/// assert_eq!(station.next_step(), Step::Press { press: 0, position: 0 });
/// assert_eq!(station.sound(0)?, None);
/// assert_eq!(station.next_step(), Step::Pass);
/// # Ok::<(), Box<dyn std::error::Error>>(())
/// ```
#[derive(Clone, Debug, PartialEq, Eq)]
#[must_use]
pub struct Station {
    sheet: Vec<u8>,
    state: [usize; 4],
}

impl Station {
    /// Begins with a sheet. A refusal is reading's, or 22 for a list that is not complete. The thread needs
    /// [`STACK`](crate::STACK) bytes of stack.
    pub fn begin(sheet: &[u8]) -> Result<Self, Refusal> {
        let (mut state, mut answer) = ([0; 4], [0; 2]);
        raw::station_begin(sheet, &mut state, &mut answer);
        rest(&answer)?;
        let sheet = sheet.to_vec();
        Ok(Station { sheet, state })
    }

    /// Goes on with a sheet and a state that a station left, as [`sheet`](Self::sheet) and [`state`](Self::state) tell
    /// them. Any four numbers are a state; what pass means is told only of those that a station of this sheet left.
    pub fn resume(sheet: &[u8], state: [usize; 4]) -> Result<Self, Refusal> {
        read(sheet)?;
        let sheet = sheet.to_vec();
        Ok(Station { sheet, state })
    }

    /// The next step. A press that is due is given again, and so is a verdict.
    pub fn next_step(&mut self) -> Step {
        let mut answer = [0; 5];
        raw::station_next(&self.sheet, &mut self.state, &mut answer);
        let [_, _, kind, first, place] = answer;
        match kind {
            0 => Step::Pulse { test: first },
            1 => Step::Press {
                press: first as u8,
                position: place,
            },
            2 => Step::Pass,
            _ => Step::Failure(failure(first, place)),
        }
    }

    /// Takes the sound of the press that is due: none if it is the specified one, or the failure. Refused with 24 if no
    /// press is due or the sound is not one of the sheet's.
    pub fn sound(&mut self, sound: u8) -> Result<Option<Failure>, Refusal> {
        let mut answer = [0; 5];
        raw::station_sound(&self.sheet, &mut self.state, sound, &mut answer);
        let numbers = rest(&answer)?;
        Ok((numbers[0] != 0).then(|| failure(numbers[1], numbers[2])))
    }

    /// Goes on at the same press with a changed sheet. A refusal is reading's; 22 for a list that is not complete; 23
    /// after the verdict, or if SIZE, QUIET, the RULEs or a test up to and including the current one differ. It leaves
    /// the station as it was. The thread needs [`STACK`](crate::STACK) bytes of stack.
    pub fn change(&mut self, changed: &[u8]) -> Result<(), Refusal> {
        let mut answer = [0; 2];
        raw::station_change(&self.sheet, changed, &self.state, &mut answer);
        rest(&answer)?;
        self.sheet = changed.to_vec();
        Ok(())
    }

    /// The station's sheet: the first, or the last changed one that was accepted.
    #[must_use]
    pub fn sheet(&self) -> &[u8] {
        &self.sheet
    }

    /// Tests begun, position, 1 if a press is due, verdict (0 none, 1 pass, 2 failure).
    #[must_use]
    pub fn state(&self) -> [usize; 4] {
        self.state
    }
}

fn failure(test: usize, position: usize) -> Failure {
    Failure { test, position }
}
