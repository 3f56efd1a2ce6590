//! The text form of a sheet: the format's words, one command a line.
//!
//! ```text
//! SIZE 2 2 2             # states, presses, sounds
//! STATES locked open     # names, if you like: they may stand wherever a number may
//! PRESSES knock handle
//! SOUNDS click bolt
//! QUIET                  # an unspecified press gives sound 0 and stays
//! RULE locked knock bolt open     # state, press, sound, next state
//! FAULT 0 0 0 1
//! START open             # a board may wake in this state
//! TEST knock 1 0         # a test with its presses
//! ```
//!
//! Words may be in capital or small letters; operands are decimal, 0 to 255, or names; `#` begins a comment. END is
//! added at the end. Every string of bytes has a text, also one that no sheet has: `PRESS 0` stands for a press outside
//! a test's line, `END` for an END before the end, and `HEX 07 1f` for any bytes. After a last line that is `END` or
//! `HEX` no END is added.
//!
//! A name is any word without `#`, a number too: where names are given, a word that is one of them is that name. Names
//! are no part of the bytes.

mod joining;
mod lines;
mod mistakes;
mod naming;
mod order;

pub use lines::Text;
pub use mistakes::{Mistake, Mistakes};

pub(crate) use lines::{Words, control_bytes, hexadecimal, worded};

use crate::Names;
use crate::commands::{Command, commands};

/// Bytes in hexadecimal, for what has no words.
const HEX: &str = "HEX";

/// Whether some input is a text: it has few bytes that no text has. A sheet that is accepted never is one, for every
/// fifth of its bytes at least begins a command.
#[must_use]
pub fn is_text(input: &[u8]) -> bool {
    let control = input.iter().filter(|&&byte| mistakes::is_control(byte));
    !input.is_empty() && control.count() * 8 <= input.len() || mistakes::is_utf16(input)
}

/// The bytes of a sheet in either form.
///
/// ```
/// let bytes = ranthelo::text::bytes_of(vec![1, 1, 1, 1, 6]).unwrap();
/// assert_eq!(ranthelo::text::bytes_of(b"SIZE 1 1 1".to_vec()), Ok(bytes));
/// ```
pub fn bytes_of(input: Vec<u8>) -> Result<Vec<u8>, Mistakes> {
    if is_text(&input) {
        assemble(&input)
    } else {
        Ok(input)
    }
}

/// The bytes that a text spells, whatever reading makes of them; or all its mistakes.
///
/// ```
/// use ranthelo::text::assemble;
///
/// assert_eq!(assemble(b"SIZE 1 1 1\nTEST 0 # one press"), Ok(vec![1, 1, 1, 1, 4, 5, 0, 6]));
/// let mistakes = assemble(b"SIZE 1 1 1\nRULE 0 0 0\nTEST 256").unwrap_err();
/// assert_eq!(mistakes[0].to_string(), "line 2: RULE takes 4 operands (state, press, sound, next state), not 3");
/// assert_eq!(mistakes[1].to_string(), "line 3: 256 is not 0 to 255");
/// ```
pub fn assemble(text: &[u8]) -> Result<Vec<u8>, Mistakes> {
    Text::read(text).map(|text| text.bytes())
}

/// The number of the line that spells the byte at a place, if one does.
///
/// ```
/// let text = b"# one state\nSIZE 1 1 1\n\nTEST";
/// assert_eq!(ranthelo::text::line_at(text, 4), Some(4));
/// assert_eq!(ranthelo::text::line_at(text, 5), None);
/// ```
#[must_use]
pub fn line_at(text: &[u8], place: usize) -> Option<usize> {
    Text::read(text).ok()?.line_at(place)
}

/// The bytes with RULEs, FAULTs and STARTs put in order, as [`Text::sorted`] does.
///
/// ```
/// use ranthelo::text::{assemble, sorted};
///
/// let mixed = assemble(b"SIZE 1 2 2\nTEST 0\nFAULT 0 1 1 0\nRULE 0 1 0 0\nRULE 0 0 0 0").unwrap();
/// let ordered = assemble(b"SIZE 1 2 2\nRULE 0 0 0 0\nRULE 0 1 0 0\nFAULT 0 1 1 0\nTEST 0").unwrap();
/// assert_eq!(sorted(&mixed), ordered);
/// ```
#[must_use]
pub fn sorted(bytes: &[u8]) -> Vec<u8> {
    let mut rows: Vec<&[u8]> = commands(bytes).map(|command| command.bytes).collect();
    rows.sort_by_key(|row| order::key(row));
    rows.concat()
}

/// The text that spells some bytes.
///
/// ```
/// use ranthelo::text::disassemble;
///
/// assert_eq!(disassemble(&[1, 1, 1, 1, 4, 5, 0, 6]), "SIZE 1 1 1\nTEST 0\n");
/// assert_eq!(disassemble(&[1, 2, 0]), "HEX 01 02 00\n");
/// ```
#[must_use]
pub fn disassemble(bytes: &[u8]) -> String {
    disassemble_named(bytes, &Names::default())
}

/// The text that spells some bytes with names. Those are as many as the sizes say, or none at all; each is a word
/// without `#`, and no two of one kind are the same.
///
/// ```
/// use ranthelo::{Names, text::disassemble_named};
///
/// let names = Names { presses: vec!["knock".to_string()], ..Names::default() };
/// assert_eq!(disassemble_named(&[1, 1, 1, 1, 4, 5, 0, 6], &names), "SIZE 1 1 1\nPRESSES knock\nTEST knock\n");
/// ```
#[must_use]
pub fn disassemble_named(bytes: &[u8], names: &Names) -> String {
    let mut lines = command_lines(bytes, names);
    finish(&mut lines);
    let declared = naming::lines(names);
    let first = lines.first().is_some_and(|line| line.starts_with("SIZE"));
    let at = usize::from(first);
    lines.splice(at..at, declared);
    lines.iter().map(|line| format!("{line}\n")).collect()
}

/// The lines that spell some commands, with names, and no more than these.
///
/// ```
/// assert_eq!(ranthelo::text::lines_of(&[4, 5, 1], &ranthelo::Names::default()), "TEST 1\n");
/// ```
#[must_use]
pub fn lines_of(bytes: &[u8], names: &Names) -> String {
    let lines = command_lines(bytes, names);
    lines.iter().map(|line| format!("{line}\n")).collect()
}

/// The commands of some bytes, a line each, a test with its presses.
fn command_lines(bytes: &[u8], names: &Names) -> Vec<String> {
    let mut lines: Vec<String> = Vec::new();
    for command in commands(bytes) {
        let line = words_named(command, names);
        match (line.strip_prefix("PRESS"), lines.last_mut()) {
            (Some(press), Some(test)) if test.starts_with("TEST") => *test += press,
            _ => lines.push(line),
        }
    }
    lines
}

/// Leaves a last END out where it would be added, and keeps one from being added where there is none.
fn finish(lines: &mut Vec<String>) {
    let ends = |line: &String| line == "END" || line.starts_with(HEX);
    match lines.as_slice() {
        [.., before, last] if last == "END" && !ends(before) => {
            lines.pop();
        }
        [.., last] if ends(last) => {}
        _ => lines.push(HEX.to_string()),
    }
}

/// A command in words.
#[must_use]
pub fn words(command: Command) -> String {
    words_named(command, &Names::default())
}

/// A command in words and names; in hexadecimal where its words would be taken for others.
fn words_named(command: Command, names: &Names) -> String {
    let whole = command.whole().and_then(|kind| {
        let operands = kind.operands.iter().zip(command.operands());
        let words = operands.map(|(what, &value)| naming::spelled(names, what, value));
        let words: Vec<String> = words.collect::<Option<_>>()?;
        Some([&[kind.word.to_string()], &words[..]].concat().join(" "))
    });
    whole.unwrap_or_else(|| format!("{HEX} {}", spelled(command.bytes)))
}

/// Bytes in hexadecimal.
#[must_use]
pub fn spelled(bytes: &[u8]) -> String {
    let list: Vec<String> = bytes.iter().map(|byte| format!("{byte:02x}")).collect();
    list.join(" ")
}
