//! The operations, with buffers that are always long enough.

use crate::raw::{self, Tables};
use crate::{MOST_BYTES, MOST_OPEN_PAIRS, MOST_SEQUENCE, Refusal};
use std::ops::Range;

/// The figures of an accepted sheet.
#[derive(Clone, Copy, Debug, PartialEq, Eq)]
pub struct Summary {
    /// How many states.
    pub states: usize,
    /// How many presses.
    pub presses: usize,
    /// How many sounds.
    pub sounds: usize,
    /// How many RULEs.
    pub rules: usize,
    /// How many FAULTs.
    pub faults: usize,
    /// How many TESTs.
    pub tests: usize,
    /// How many choices a board of the sheet has.
    pub open_pairs: usize,
}

/// The open pairs that were used: how many, and bit i for pair i. A pair used twice counts once.
#[derive(Clone, Copy, Debug, PartialEq, Eq)]
pub struct Used {
    /// How many.
    pub number: usize,
    /// Which.
    pub set: u32,
}

/// What a run gives.
#[derive(Clone, Debug, PartialEq, Eq)]
pub struct Run {
    /// One sound for each press.
    pub sounds: Vec<u8>,
    /// The open pairs that it met.
    pub used: Used,
}

/// Where a board first goes wrong, both numbers from 0.
#[derive(Clone, Copy, Debug, PartialEq, Eq)]
pub struct Failure {
    /// The test.
    pub test: usize,
    /// The position of the wrong sound in it.
    pub position: usize,
}

/// What the list of tests makes of a board.
#[derive(Clone, Copy, Debug, PartialEq, Eq)]
#[must_use]
pub struct Trial {
    /// None if the board passes every test.
    pub failure: Option<Failure>,
    /// The open pairs used by all tests up to and including the wrong sound, by all tests if none is wrong.
    pub used: Used,
}

/// What a board is, beside the specification.
#[derive(Clone, Debug, PartialEq, Eq)]
#[must_use]
pub enum Comparison {
    /// It sounds as specified on every sequence of presses that the specification defines.
    Conforms,
    /// It does not; this is the shortest sequence that shows it.
    Departs {
        /// The presses.
        sequence: Vec<u8>,
    },
}

/// What the list of tests is worth.
#[derive(Clone, Debug, PartialEq, Eq)]
#[must_use]
pub enum Verdict {
    /// Every departing board fails some test.
    Complete,
    /// The first departing board that passes the list, and the shortest sequence that shows it: the test to add.
    Survivor {
        /// The board's choices.
        board: Vec<u8>,
        /// The presses of the test to add.
        sequence: Vec<u8>,
    },
}

/// The place of a walk over the boards that pass a list.
#[derive(Clone, Debug, PartialEq, Eq)]
pub enum Place {
    /// Before the first board.
    Start,
    /// At the last board taken.
    Board(Vec<u8>),
    /// After the last board.
    End,
}

/// A board that passes the list, or gives a record, and what it is beside the specification.
#[derive(Clone, Debug, PartialEq, Eq)]
#[must_use]
pub struct Passing {
    /// Its choices.
    pub board: Vec<u8>,
    /// What compare answers of it.
    pub comparison: Comparison,
}

/// A sheet whose list was made complete.
#[derive(Clone, Debug, PartialEq, Eq)]
#[must_use]
pub struct Made {
    /// The sheet with its own tests first, and the appended ones after them.
    pub sheet: Vec<u8>,
    /// How many tests were appended.
    pub appended: usize,
}

/// Why two sheets were not merged.
#[derive(Clone, Copy, Debug, PartialEq, Eq)]
pub struct MergeRefusal {
    /// The sheet that a refusal on reading concerns, 1 or 2; none for any other refusal.
    pub sheet: Option<usize>,
    /// Its number and place.
    pub refusal: Refusal,
}

impl std::fmt::Display for MergeRefusal {
    fn fmt(&self, f: &mut std::fmt::Formatter) -> std::fmt::Result {
        match self.sheet {
            Some(sheet) => write!(f, "sheet {sheet}: {}", self.refusal),
            None => write!(f, "{}", self.refusal),
        }
    }
}

impl std::error::Error for MergeRefusal {}

/// The numbers after the refusal's number and place.
pub(crate) fn rest<const N: usize>(answer: &[usize; N]) -> Result<&[usize], Refusal> {
    let (number, place) = (answer[0], answer[1]);
    match number {
        0 => Ok(&answer[2..]),
        _ => Err(Refusal { number, place }),
    }
}

impl Used {
    fn from_answer(number: usize, set: usize) -> Self {
        let set = u32::try_from(set).expect("a set has 32 bits");
        Used { number, set }
    }

    /// The numbers of the pairs, ascending.
    pub fn pairs(self) -> impl Iterator<Item = usize> {
        (0..32).filter(move |i| self.set >> i & 1 == 1)
    }
}

/// Reads a sheet: its figures.
///
/// ```
/// let sheet = [1, 1, 1, 1, 6]; // SIZE 1 1 1, END
/// let summary = ranthelo::read(&sheet)?;
/// assert_eq!((summary.states, summary.open_pairs), (1, 0));
///
/// let refusal = ranthelo::read(&sheet[..4]).unwrap_err();
/// assert_eq!((refusal.number, refusal.place), (2, 4));
/// # Ok::<(), ranthelo::Refusal>(())
/// ```
pub fn read(sheet: &[u8]) -> Result<Summary, Refusal> {
    let mut answer = [0; 9];
    raw::read(sheet, &mut answer);
    let figures = rest(&answer)?;
    Ok(Summary {
        states: figures[0],
        presses: figures[1],
        sounds: figures[2],
        rules: figures[3],
        faults: figures[4],
        tests: figures[5],
        open_pairs: figures[6],
    })
}

/// Where in the sheet the PRESS commands of a test stand.
pub fn test_span(sheet: &[u8], test: usize) -> Result<Range<usize>, Refusal> {
    let mut answer = [0; 4];
    raw::test_span(sheet, test, &mut answer);
    let span = rest(&answer)?;
    Ok(span[0]..span[0] + span[1])
}

/// The PRESS commands of a test, as the very part of the sheet.
///
/// ```
/// let sheet = ranthelo::text::assemble(b"SIZE 1 2 1\n RULE 0 0 0 0\n RULE 0 1 0 0\n TEST\n TEST 1 0")?;
/// assert_eq!(ranthelo::test_part(&sheet, 1)?, [5, 1, 5, 0]);
/// assert_eq!(ranthelo::test_part(&sheet, 2).unwrap_err().number, 17);
/// # Ok::<(), Box<dyn std::error::Error>>(())
/// ```
pub fn test_part(sheet: &[u8], test: usize) -> Result<&[u8], Refusal> {
    test_span(sheet, test).map(|span| &sheet[span])
}

/// The sheet that tables spell. A refusal has place 0 and the number with which reading refuses that sheet, or 2 for a
/// cut row and for lengths that do not add up to the presses.
///
/// ```
/// let sheet = ranthelo::write(ranthelo::Tables {
///     size: [1, 1, 2],
///     rules: &[0, 0, 1, 0],
///     lengths: &[2],
///     presses: &[0, 0],
///     ..Default::default()
/// })?;
/// assert_eq!(sheet, [1, 1, 1, 2, 2, 0, 0, 1, 0, 4, 5, 0, 5, 0, 6]);
/// # Ok::<(), ranthelo::Refusal>(())
/// ```
pub fn write(tables: Tables) -> Result<Vec<u8>, Refusal> {
    let mut answer = [0; 3];
    sheet_from(|buffer| {
        raw::write(tables, buffer, &mut answer);
        Ok(rest(&answer)?[0])
    })
}

/// The sheet of a seed and so many states, presses and sounds: no tests, the same bytes everywhere.
///
/// ```
/// let sheet = ranthelo::generate(7, [3, 2, 2])?;
/// assert_eq!(ranthelo::read(&sheet)?.rules, 6);
/// assert_eq!(ranthelo::generate(7, [3, 2, 17]).unwrap_err().number, 4);
/// # Ok::<(), ranthelo::Refusal>(())
/// ```
pub fn generate(seed: u32, size: [u8; 3]) -> Result<Vec<u8>, Refusal> {
    let mut answer = [0; 3];
    sheet_from(|buffer| {
        raw::generate(seed, size, buffer, &mut answer);
        Ok(rest(&answer)?[0])
    })
}

/// The sheet in first-reached form: states numbered as breadth-first search from state 0, presses ascending, meets them
/// by RULEs alone, and the commands put in order again. Two sheets have one such form exactly when they differ in their
/// states' names alone.
///
/// ```
/// let sheet = ranthelo::text::assemble(b"SIZE 3 1 2\n RULE 0 0 0 2\n RULE 1 0 1 0\n RULE 2 0 0 1\n TEST 0 0 0")?;
/// let form = ranthelo::text::assemble(b"SIZE 3 1 2\n RULE 0 0 0 1\n RULE 1 0 0 2\n RULE 2 0 1 0\n TEST 0 0 0")?;
/// assert_eq!(ranthelo::renumber(&sheet)?, form);
/// assert_eq!(ranthelo::renumber(&form)?, form);
/// # Ok::<(), Box<dyn std::error::Error>>(())
/// ```
pub fn renumber(sheet: &[u8]) -> Result<Vec<u8>, Refusal> {
    let mut answer = [0; 3];
    sheet_from(|buffer| {
        raw::renumber(sheet, buffer, &mut answer);
        Ok(rest(&answer)?[0])
    })
}

/// The sheet that an operation writes to a buffer and whose length it tells.
fn sheet_from(write: impl FnOnce(&mut [u8]) -> Result<usize, Refusal>) -> Result<Vec<u8>, Refusal> {
    let mut buffer = vec![0; MOST_BYTES];
    let length = write(&mut buffer)?;
    buffer.truncate(length);
    Ok(buffer)
}

/// Runs a board on presses, which need not be defined.
///
/// ```
/// let sheet = ranthelo::text::assemble(b"SIZE 1 1 2\n RULE 0 0 0 0\n FAULT 0 0 1 0")?;
/// let run = ranthelo::run(&sheet, &[1], &[0, 0])?;
/// assert_eq!((run.sounds, run.used.number), (vec![1, 1], 1));
/// # Ok::<(), Box<dyn std::error::Error>>(())
/// ```
pub fn run(sheet: &[u8], board: &[u8], presses: &[u8]) -> Result<Run, Refusal> {
    let (mut sounds, mut answer) = (vec![0; presses.len()], [0; 4]);
    raw::run(sheet, board, presses, &mut sounds, &mut answer);
    let numbers = rest(&answer)?;
    let used = Used::from_answer(numbers[0], numbers[1]);
    Ok(Run { sounds, used })
}

/// The first test that a board fails, if it fails one.
///
/// ```
/// let sheet = ranthelo::text::assemble(b"SIZE 1 1 2\n RULE 0 0 0 0\n FAULT 0 0 1 0\n TEST\n TEST 0")?;
/// let failure = ranthelo::first_failed(&sheet, &[1])?.failure;
/// assert_eq!(failure, Some(ranthelo::Failure { test: 1, position: 0 }));
/// assert_eq!(ranthelo::first_failed(&sheet, &[0])?.failure, None);
/// # Ok::<(), Box<dyn std::error::Error>>(())
/// ```
pub fn first_failed(sheet: &[u8], board: &[u8]) -> Result<Trial, Refusal> {
    let mut answer = [0; 7];
    raw::first_failed(sheet, board, &mut answer);
    let numbers = rest(&answer)?;
    let (test, position) = (numbers[1], numbers[2]);
    Ok(Trial {
        failure: (numbers[0] == 1).then_some(Failure { test, position }),
        used: Used::from_answer(numbers[3], numbers[4]),
    })
}

/// Compares a board with the specification.
///
/// ```
/// use ranthelo::Comparison;
///
/// let sheet = ranthelo::text::assemble(b"SIZE 1 1 2\n RULE 0 0 0 0\n FAULT 0 0 1 0")?;
/// assert_eq!(ranthelo::compare(&sheet, &[0])?, Comparison::Conforms);
/// assert_eq!(ranthelo::compare(&sheet, &[1])?, Comparison::Departs { sequence: vec![0] });
/// # Ok::<(), Box<dyn std::error::Error>>(())
/// ```
pub fn compare(sheet: &[u8], board: &[u8]) -> Result<Comparison, Refusal> {
    let (mut buffer, mut answer) = ([0; MOST_SEQUENCE], [0; 4]);
    raw::compare(sheet, board, &mut buffer, &mut answer);
    Ok(match *rest(&answer)? {
        [0, _] => Comparison::Conforms,
        [_, length] => Comparison::Departs {
            sequence: buffer[..length].to_vec(),
        },
        _ => unreachable!("two numbers follow"),
    })
}

/// Judges whether the sheet's list of tests is complete. The thread needs [`STACK`](crate::STACK) bytes of stack.
///
/// ```
/// use ranthelo::Verdict;
///
/// let sheet = ranthelo::text::assemble(b"SIZE 1 1 2\n RULE 0 0 0 0\n FAULT 0 0 1 0")?;
/// let (board, sequence) = (vec![1], vec![0]);
/// assert_eq!(ranthelo::judge(&sheet)?, Verdict::Survivor { board, sequence });
///
/// let sheet = ranthelo::text::assemble(b"SIZE 1 1 2\n RULE 0 0 0 0\n FAULT 0 0 1 0\n TEST 0")?;
/// assert_eq!(ranthelo::judge(&sheet)?, Verdict::Complete);
/// # Ok::<(), Box<dyn std::error::Error>>(())
/// ```
pub fn judge(sheet: &[u8]) -> Result<Verdict, Refusal> {
    let (mut board, mut sequence) = ([0; MOST_OPEN_PAIRS], [0; MOST_SEQUENCE]);
    let mut answer = [0; 4];
    raw::judge(sheet, &mut board, &mut sequence, &mut answer);
    match *rest(&answer)? {
        [0, _] => Ok(Verdict::Complete),
        [_, length] => Ok(Verdict::Survivor {
            board: board[..read(sheet)?.open_pairs].to_vec(),
            sequence: sequence[..length].to_vec(),
        }),
        _ => unreachable!("two numbers follow"),
    }
}

/// Takes the next board that passes the list: the first in dictionary order after a place, none at the end. The thread
/// needs [`STACK`](crate::STACK) bytes of stack.
///
/// ```
/// use ranthelo::{Comparison, Place};
///
/// let sheet = ranthelo::text::assemble(b"SIZE 1 1 2\n RULE 0 0 0 0\n FAULT 0 0 1 0")?;
/// let first = ranthelo::take(&sheet, &Place::Start)?.expect("two boards pass");
/// assert_eq!((first.board.as_slice(), first.comparison), (&[0][..], Comparison::Conforms));
///
/// let second = ranthelo::take(&sheet, &Place::Board(first.board))?.expect("one more passes");
/// assert_eq!(second.comparison, Comparison::Departs { sequence: vec![0] });
///
/// let longer = ranthelo::add_test(&sheet, &[0])?;
/// assert_eq!(ranthelo::take(&longer, &Place::Start)?.map(|p| p.board), Some(vec![0]));
/// assert_eq!(ranthelo::take(&longer, &Place::Board(vec![0]))?, None);
/// # Ok::<(), Box<dyn std::error::Error>>(())
/// ```
pub fn take(sheet: &[u8], place: &Place) -> Result<Option<Passing>, Refusal> {
    let (place, last) = match place {
        Place::Start => (0, &[][..]),
        Place::Board(board) => (1, board.as_slice()),
        Place::End => (2, &[][..]),
    };
    let (mut board, mut sequence) = ([0; MOST_OPEN_PAIRS], [0; MOST_SEQUENCE]);
    let mut answer = [0; 5];
    raw::take(sheet, place, last, &mut board, &mut sequence, &mut answer);
    let numbers = rest(&answer)?;
    if numbers[0] == 0 {
        return Ok(None);
    }
    let comparison = match numbers[1] {
        0 => Comparison::Conforms,
        _ => Comparison::Departs {
            sequence: sequence[..numbers[2]].to_vec(),
        },
    };
    let board = board[..read(sheet)?.open_pairs].to_vec();
    Ok(Some(Passing { board, comparison }))
}

/// The sheet with one test more, the last. A refusal is reading's, 8 at 0 for the 257th test, 5, 8 or 9 at the index of
/// a press, or 1 at 0 for over 16,384 bytes.
///
/// ```
/// let sheet = ranthelo::text::assemble(b"SIZE 1 1 2\n RULE 0 0 0 0\n TEST")?;
/// let longer = ranthelo::add_test(&sheet, &[0, 0])?;
/// assert_eq!(ranthelo::test_part(&longer, 1)?, [5, 0, 5, 0]);
///
/// let refusal = ranthelo::add_test(&sheet, &[0, 1]).unwrap_err();
/// assert_eq!((refusal.number, refusal.place), (5, 1));
/// # Ok::<(), Box<dyn std::error::Error>>(())
/// ```
pub fn add_test(sheet: &[u8], presses: &[u8]) -> Result<Vec<u8>, Refusal> {
    let mut answer = [0; 3];
    sheet_from(|buffer| {
        raw::add_test(sheet, presses, buffer, &mut answer);
        Ok(rest(&answer)?[0])
    })
}

/// Makes the sheet's list of tests complete: while it is not, the sequence of the verdict's survivor is appended as a
/// test. A refusal is reading's, or 18 where the next test does not fit. The thread needs [`STACK`](crate::STACK) bytes
/// of stack.
///
/// ```
/// use ranthelo::Verdict;
///
/// let sheet = ranthelo::text::assemble(b"SIZE 1 1 2\n RULE 0 0 0 0\n FAULT 0 0 1 0\n TEST")?;
/// let made = ranthelo::make(&sheet)?;
/// assert_eq!((made.appended, made.to_string().as_str()), (1, "1 test appended"));
/// assert_eq!(ranthelo::test_part(&made.sheet, 1)?, [5, 0]);
/// assert_eq!(ranthelo::judge(&made.sheet)?, Verdict::Complete);
/// # Ok::<(), Box<dyn std::error::Error>>(())
/// ```
pub fn make(sheet: &[u8]) -> Result<Made, Refusal> {
    let (mut answer, mut appended) = ([0; 4], 0);
    let sheet = sheet_from(|buffer| {
        raw::make(sheet, buffer, &mut answer);
        let numbers = rest(&answer)?;
        appended = numbers[1];
        Ok(numbers[0])
    })?;
    Ok(Made { sheet, appended })
}

/// The first test that each board of a tray fails, none where it fails none. The boards' choices stand end to end.
/// Refused with 16 if there are more boards than memory holds.
///
/// ```
/// let sheet = ranthelo::text::assemble(b"SIZE 1 1 2\n RULE 0 0 0 0\n FAULT 0 0 1 0\n TEST\n TEST 0")?;
/// assert_eq!(ranthelo::tray(&sheet, 3, &[0, 1, 0])?, [None, Some(1), None]);
/// # Ok::<(), Box<dyn std::error::Error>>(())
/// ```
pub fn tray(sheet: &[u8], boards: usize, choices: &[u8]) -> Result<Vec<Option<usize>>, Refusal> {
    // A tray that is refused needs no results: so no more are made than there are boards.
    let room = match read(sheet)?.open_pairs {
        0 if choices.is_empty() => boards,
        0 => 0,
        open_pairs => boards.min(choices.len() / open_pairs),
    };
    // For more boards than memory holds there is no room at all: the library refuses them with 16.
    let (mut results, mut answer) = (Vec::new(), [0; 2]);
    if results.try_reserve_exact(room).is_ok() {
        results.resize(room, 0);
    }
    raw::tray(sheet, boards, choices, &mut results, &mut answer);
    rest(&answer)?;
    let test = |result: u16| (result != u16::MAX).then_some(usize::from(result));
    Ok(results.into_iter().map(test).collect())
}

/// What a lock's own record tells.
#[derive(Clone, Copy, Debug, PartialEq, Eq)]
pub struct Recorded {
    /// The place in the record of the first SEEN whose sound differs from the specification's. From an undefined press
    /// to the next PULSE nothing is compared.
    pub differs: Option<usize>,
    /// Whether some single board of the sheet gives every sound.
    pub given: bool,
}

/// Checks a lock's own record: `0x10` for a pulse, `0x11 x o` for a press and its sound, of any length. The thread
/// needs [`STACK`](crate::STACK) bytes of stack.
///
/// ```
/// let sheet = ranthelo::text::assemble(b"SIZE 1 1 2\n RULE 0 0 0 0\n FAULT 0 0 1 0")?;
/// let told = ranthelo::check_record(&sheet, &[0x10, 0x11, 0, 1])?;
/// assert_eq!((told.differs, told.given), (Some(1), true));
/// let told = ranthelo::check_record(&sheet, &[0x10, 0x11, 0, 1, 0x11, 0, 0])?;
/// assert_eq!((told.differs, told.given), (Some(1), false));
/// # Ok::<(), Box<dyn std::error::Error>>(())
/// ```
pub fn check_record(sheet: &[u8], log: &[u8]) -> Result<Recorded, Refusal> {
    let mut answer = [0; 5];
    raw::record(sheet, log, &mut answer);
    let numbers = rest(&answer)?;
    Ok(Recorded {
        differs: (numbers[0] == 1).then_some(numbers[1]),
        given: numbers[2] == 1,
    })
}

/// The first board in dictionary order that gives a record, if there is one. The thread needs [`STACK`](crate::STACK)
/// bytes of stack.
pub fn explain_record(sheet: &[u8], log: &[u8]) -> Result<Option<Passing>, Refusal> {
    let (mut board, mut sequence) = ([0; MOST_OPEN_PAIRS], [0; MOST_SEQUENCE]);
    let mut answer = [0; 5];
    raw::record_board(sheet, log, &mut board, &mut sequence, &mut answer);
    let comparison = match *rest(&answer)? {
        [0, _, _] => return Ok(None),
        [_, 0, _] => Comparison::Conforms,
        [_, _, length] => Comparison::Departs {
            sequence: sequence[..length].to_vec(),
        },
        _ => unreachable!("three numbers follow"),
    };
    let board = board[..read(sheet)?.open_pairs].to_vec();
    Ok(Some(Passing { board, comparison }))
}

/// The sheet with the faults and STARTs of two sheets of one machine, each once, in order, and the first sheet's tests
/// followed by the second's. If its list is judged complete, each departing board of either sheet fails some test in
/// it.
///
/// ```
/// let plastics = ranthelo::text::assemble(b"SIZE 1 1 3\n RULE 0 0 0 0\n FAULT 0 0 1 0\n TEST 0")?;
/// let electronics = ranthelo::text::assemble(b"SIZE 1 1 3\n RULE 0 0 0 0\n FAULT 0 0 2 0\n TEST")?;
/// let merged = ranthelo::merge(&plastics, &electronics)?;
/// let spelled = b"SIZE 1 1 3\n RULE 0 0 0 0\n FAULT 0 0 1 0\n FAULT 0 0 2 0\n TEST 0\n TEST";
/// assert_eq!(merged, ranthelo::text::assemble(spelled)?);
///
/// let refusal = ranthelo::merge(&plastics, &electronics[..4]).unwrap_err();
/// assert_eq!((refusal.sheet, refusal.refusal.number), (Some(2), 2));
/// # Ok::<(), Box<dyn std::error::Error>>(())
/// ```
pub fn merge(first: &[u8], second: &[u8]) -> Result<Vec<u8>, MergeRefusal> {
    let mut answer = [0; 4];
    let merged = sheet_from(|buffer| {
        raw::merge(first, second, buffer, &mut answer);
        Ok(rest(&answer)?[1])
    });
    let sheet = Some(answer[2]).filter(|&sheet| sheet != 0);
    merged.map_err(|refusal| MergeRefusal { sheet, refusal })
}
