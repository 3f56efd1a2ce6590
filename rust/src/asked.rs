//! Why an operation refuses what it was asked, with the figures. That it refuses, and with which number and place, the
//! library said; this module says what stands there.

mod joined;
mod records;

use crate::answers::fields;
use crate::explain::reason_named;
use crate::machine::Machine;
use crate::{
    MOST_BYTES, MOST_PRESSES, MOST_TESTS, Names, Refusal, RefusalKind, Verdict, add_test, judge,
    meaning, read,
};
use std::time::{Duration, Instant};

/// How long is looked for the figures of a refusal that the library gave.
const PATIENCE: Duration = Duration::from_secs(30);

/// What an operation took beside the sheet.
#[derive(Clone, Copy, Debug)]
#[non_exhaustive]
pub enum Asked<'a> {
    /// Nothing more.
    Sheet,
    /// To write it from its tables.
    Tables,
    /// A board.
    Board(&'a [u8]),
    /// A board and presses to run it on.
    Run {
        /// The board's choices.
        board: &'a [u8],
        /// The presses.
        presses: &'a [u8],
    },
    /// A test by its number.
    Test(usize),
    /// To make its list complete.
    Made,
    /// A test to add.
    NewTest(&'a [u8]),
    /// Boards end to end.
    Tray {
        /// How many.
        boards: usize,
        /// Their choices.
        choices: &'a [u8],
    },
    /// A lock's record.
    Record(&'a [u8]),
    /// A second sheet to merge it with.
    Second(&'a [u8]),
    /// To drive a lock by it.
    Station,
    /// To go on by it after another sheet, of which so many tests have begun; or after a verdict.
    Changed {
        /// The station's sheet until now.
        before: &'a [u8],
        /// How many of its tests have begun.
        begun: usize,
        /// Whether the verdict is given.
        over: bool,
    },
    /// A sound of the lock, and whether a press is due.
    Sound {
        /// The sound.
        sound: u8,
        /// Whether a press is due.
        due: bool,
    },
}

/// Why an operation refused what it was asked; what its number means where no more can be said.
///
/// ```
/// use ranthelo::{Names, asked::{Asked, why}, compare, text::assemble};
///
/// let sheet = assemble(b"SIZE 1 1 2\n RULE 0 0 0 0\n FAULT 0 0 1 0")?;
/// let refusal = compare(&sheet, &[2]).unwrap_err();
/// let why = why(&sheet, &Asked::Board(&[2]), refusal, &Names::default());
/// assert_eq!(why, "choice 2 at open pair 0 (state 0, press 0), which has 2");
/// # Ok::<(), Box<dyn std::error::Error>>(())
/// ```
#[must_use]
pub fn why(sheet: &[u8], asked: &Asked, refusal: Refusal, names: &Names) -> String {
    let general = || {
        meaning(refusal.number)
            .unwrap_or("unknown number")
            .to_string()
    };
    if read(sheet) == Err(refusal) {
        return reason_named(sheet, refusal, names);
    }
    let Ok(machine) = Machine::of(sheet) else {
        return general();
    };
    let asking = Asking {
        sheet,
        machine,
        names,
        refusal,
    };
    asking.own(asked).unwrap_or_else(general)
}

/// A refusal of an accepted sheet.
struct Asking<'a> {
    sheet: &'a [u8],
    machine: Machine,
    names: &'a Names,
    refusal: Refusal,
}

impl Asking<'_> {
    fn own(&self, asked: &Asked) -> Option<String> {
        let place = self.refusal.place;
        match (self.refusal.number, *asked) {
            (13, Asked::Board(board) | Asked::Run { board, .. }) => Some(format!(
                "{}, and the sheet has {}",
                many(board.len(), "choice"),
                self.pairs()
            )),
            (13, Asked::Tray { boards, choices }) => {
                let (boards, given) = (many(boards, "board"), many(choices.len(), "choice"));
                Some(format!(
                    "{boards} in {given}, and the sheet has {}",
                    self.pairs()
                ))
            }
            (14, Asked::Board(board) | Asked::Run { board, .. }) => self.choice(board, place),
            (14, Asked::Tray { choices, .. }) => self.choice_in_tray(choices),
            (15, Asked::Run { presses, .. }) => {
                let (press, most) = (presses.get(place)?, self.machine.presses);
                Some(format!(
                    "press {press} at index {place} is not below {most}"
                ))
            }
            (17, Asked::Test(test)) => {
                let tests = many(self.machine.tests.len(), "test");
                Some(format!("there is no test {test}: the sheet has {tests}"))
            }
            (18, Asked::Made) => full(self.sheet),
            (_, Asked::NewTest(presses)) => self.new_test(presses),
            (20, Asked::Record(record)) => records::why(&self.machine, record, place),
            (_, Asked::Second(other)) => {
                joined::merged(&self.machine, other, self.refusal.number, self.names)
            }
            (22, Asked::Station | Asked::Changed { .. }) => incomplete(self.sheet, self.names),
            (
                23,
                Asked::Changed {
                    before,
                    begun,
                    over,
                },
            ) => joined::changed(before, &self.machine, begun, over, self.names),
            (24, Asked::Sound { sound, due }) => Some(match due {
                false => "no press is due".to_string(),
                true => format!("sound {sound} is not below {}", self.machine.sounds),
            }),
            _ => None,
        }
    }

    /// `1 open pair`
    fn pairs(&self) -> String {
        many(self.machine.open_pairs().len(), "open pair")
    }

    /// A choice that its open pair does not have.
    fn choice(&self, board: &[u8], pair: usize) -> Option<String> {
        let (choice, pairs) = (board.get(pair)?, self.machine.open_pairs());
        let open = pairs.get(pair)?;
        let (site, count) = (self.names.site(open.site), open.choices.len());
        Some(format!(
            "choice {choice} at open pair {pair} ({site}), which has {count}"
        ))
    }

    fn choice_in_tray(&self, choices: &[u8]) -> Option<String> {
        let (width, place) = (self.machine.open_pairs().len(), self.refusal.place);
        let board = place.checked_div(width)?;
        let choices = choices.get(board * width..)?;
        Some(format!(
            "board {board}: {}",
            self.choice(choices, place % width)?
        ))
    }

    /// A test that can't be added.
    fn new_test(&self, presses: &[u8]) -> Option<String> {
        let Refusal { number, place } = self.refusal;
        let press = || presses.get(place);
        match number {
            1 => {
                let length = self.sheet.len() + 1 + 2 * presses.len();
                Some(format!(
                    "the sheet would have {length} bytes, over {MOST_BYTES}"
                ))
            }
            5 => Some(format!(
                "press {} is not below {}",
                press()?,
                self.machine.presses
            )),
            8 if self.machine.tests.len() >= MOST_TESTS => {
                Some(format!("{MOST_TESTS} tests stand before it"))
            }
            8 => Some(format!("{MOST_PRESSES} presses stand before it")),
            9 => {
                let (state, press) = (
                    self.machine.reached(presses.get(..place)?)?,
                    self.names.press(*press()?),
                );
                let state = self.names.state(state);
                Some(format!(
                    "the test has reached state {state}, which has no RULE for press {press}"
                ))
            }
            _ => None,
        }
    }
}

/// `2 choices`
fn many(number: usize, thing: &str) -> String {
    match (number, thing) {
        (1, _) => format!("1 {thing}"),
        (_, "press") => format!("{number} presses"),
        _ => format!("{number} {thing}s"),
    }
}

/// Which limit keeps the next test from being appended: the tests are made once more, one after the other. None if that
/// takes too long.
fn full(sheet: &[u8]) -> Option<String> {
    let (own, mut sheet) = (read(sheet).ok()?.tests, sheet.to_vec());
    let begin = Instant::now();
    while begin.elapsed() < PATIENCE {
        let Verdict::Survivor { sequence, .. } = judge(&sheet).ok()? else {
            return None;
        };
        match add_test(&sheet, &sequence) {
            Ok(longer) => sheet = longer,
            Err(refusal) => return Some(no_room(&sheet, &sequence, own, refusal)),
        }
    }
    None
}

/// Why a test is not added to a list of which so many tests were there before.
fn no_room(sheet: &[u8], sequence: &[u8], own: usize, refusal: Refusal) -> String {
    let tests = read(sheet).map_or(0, |summary| summary.tests);
    let stand = format!("{tests} tests stand, {own} of them its own");
    if refusal.kind() == RefusalKind::TooMany {
        return format!("the next test does not fit: {stand}");
    }
    let length = sheet.len() + 1 + 2 * sequence.len();
    let presses = many(sequence.len(), "press");
    format!(
        "the next test does not fit: with its {presses} the sheet would have {length} bytes, over {MOST_BYTES}; {stand}"
    )
}

/// What a list lacks.
fn incomplete(sheet: &[u8], names: &Names) -> Option<String> {
    let Verdict::Survivor { board, sequence } = judge(sheet).ok()? else {
        return None;
    };
    let (board, presses) = (
        fields("board", board),
        sequence.iter().map(|&x| names.press(x)),
    );
    Some(format!(
        "the list is not complete: {board} passes it and {}",
        fields("departs on", presses)
    ))
}
