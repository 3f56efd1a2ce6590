//! Refusals: a number and a place, and what each number means.

use std::error::Error;
use std::fmt;

/// Why an operation turned its arguments away. After a refusal nothing has been written.
#[derive(Clone, Copy, Debug, PartialEq, Eq, Hash)]
pub struct Refusal {
    /// Which rule is broken; see [`meaning`].
    pub number: usize,
    /// The offset of the command concerned, for 1 to 12; the index of the byte concerned, for 14 and 15; otherwise 0 or
    /// 1.
    pub place: usize,
}

/// Which rule is broken, by a refusal's number.
#[derive(Clone, Copy, Debug, PartialEq, Eq, Hash, PartialOrd, Ord)]
#[non_exhaustive]
pub enum Kind {
    /// 1: over 16,384 bytes.
    TooLong,
    /// 2: a command or an operand is missing, or a table is cut.
    Cut,
    /// 3: a command is unknown or not allowed at its point.
    Misplaced,
    /// 4: the number of states, presses or sounds is not 1 to 16.
    Size,
    /// 5: an operand is out of range.
    OutOfRange,
    /// 6: RULEs, FAULTs or STARTs do not ascend.
    Order,
    /// 7: a FAULT has no RULE at its pair or equals it, or a START names state 0.
    NoAlternative,
    /// 8: one FAULT, TEST or PRESS too many.
    TooMany,
    /// 9: a PRESS has no RULE at the state that its test has reached.
    Undefined,
    /// 10: a byte follows END.
    AfterEnd,
    /// 11: a state can't be reached.
    Unreachable,
    /// 12: over 32 open pairs.
    OpenPairs,
    /// 13: a board's length is not the number of open pairs.
    BoardLength,
    /// 14: a choice is not below its pair's number of choices.
    Choice,
    /// 15: a press is not below the number of presses.
    Press,
    /// 16: a buffer is too short.
    Buffer,
    /// 17: there is no such test.
    NoTest,
    /// 18: the next test does not fit.
    Full,
    /// 20: a record has a command that is cut, unknown, out of range, or a SEEN before any PULSE.
    Record,
    /// 21: two sheets to be merged are of different machines.
    Different,
    /// 22: a station's list is not complete.
    Incomplete,
    /// 23: a changed sheet does not go on where the station's is, or comes after the verdict.
    Changed,
    /// 24: a sound comes when no press is due, or is not below the number of sounds.
    Sound,
    /// A number that no operation gives.
    Unknown,
}

/// The kinds by their numbers, from 1 on.
const KINDS: [Kind; 24] = [
    Kind::TooLong,
    Kind::Cut,
    Kind::Misplaced,
    Kind::Size,
    Kind::OutOfRange,
    Kind::Order,
    Kind::NoAlternative,
    Kind::TooMany,
    Kind::Undefined,
    Kind::AfterEnd,
    Kind::Unreachable,
    Kind::OpenPairs,
    Kind::BoardLength,
    Kind::Choice,
    Kind::Press,
    Kind::Buffer,
    Kind::NoTest,
    Kind::Full,
    Kind::Unknown,
    Kind::Record,
    Kind::Different,
    Kind::Incomplete,
    Kind::Changed,
    Kind::Sound,
];

impl Refusal {
    /// Which rule is broken.
    ///
    /// ```
    /// use ranthelo::{RefusalKind, read};
    ///
    /// assert_eq!(read(&[1, 1, 1, 1]).unwrap_err().kind(), RefusalKind::Cut);
    /// ```
    #[must_use]
    pub fn kind(&self) -> Kind {
        let index = self.number.checked_sub(1);
        index
            .and_then(|index| KINDS.get(index))
            .copied()
            .unwrap_or(Kind::Unknown)
    }
}

/// What a refusal's number means; none for a number that no operation gives.
///
/// ```
/// assert_eq!(ranthelo::meaning(12), Some("over 32 open pairs"));
/// assert_eq!(ranthelo::meaning(0), None);
/// ```
#[must_use]
pub fn meaning(number: usize) -> Option<&'static str> {
    Some(match number {
        1 => "the sheet has over 16,384 bytes",
        2 => "the sheet ends where a command or an operand is due, or a table is cut",
        3 => "the command is unknown or not allowed at this point",
        4 => "the number of states, presses or sounds is not 1 to 16",
        5 => "an operand is out of range",
        6 => "RULEs, FAULTs or STARTs do not ascend",
        7 => "a FAULT has no RULE at its pair or equals it, or a START names state 0",
        8 => "one FAULT, TEST or PRESS too many",
        9 => "a PRESS has no RULE at the state that its test has reached",
        10 => "a byte follows END",
        11 => "a state can't be reached from state 0 by RULEs",
        12 => "over 32 open pairs",
        13 => "the board's length is not the number of open pairs",
        14 => "a choice is not below its pair's number of choices",
        15 => "a press is not below the number of presses",
        16 => "a buffer is too short",
        17 => "there is no such test",
        18 => "the next test does not fit: 256 tests or 16,384 bytes would be passed",
        20 => "a command of the record is cut, unknown, out of range, or a SEEN before any PULSE",
        21 => "SIZE, QUIET or the RULEs of the two sheets differ",
        22 => "a first or changed sheet of a station has a list that is not complete",
        23 => "a changed sheet differs in what is in use, or comes after the verdict",
        24 => "a sound when no press is due, or one not below the number of sounds",
        _ => return None,
    })
}

/// `refused 9 at 44: a PRESS has no RULE at the state that its test has reached`
impl fmt::Display for Refusal {
    fn fmt(&self, f: &mut fmt::Formatter) -> fmt::Result {
        write!(f, "refused {} at {}", self.number, self.place)?;
        match meaning(self.number) {
            Some(text) => write!(f, ": {text}"),
            None => Ok(()),
        }
    }
}

impl Error for Refusal {}
