//! A text line by line.

use super::mistakes::{self, Mistake, Mistakes};
use super::naming::{self, Naming};
use super::{HEX, order};
use crate::Names;
use crate::commands::{END, Kind, PRESS, SIZE, TEST};

/// A line with a command: its number from 1, the bytes it spells, and whether no END is added after it.
#[derive(Clone, Debug, PartialEq, Eq)]
pub(super) struct Line {
    pub number: usize,
    pub bytes: Vec<u8>,
    ends: bool,
}

/// A text taken apart: its lines with commands, and the names that it gives.
///
/// ```
/// use ranthelo::text::Text;
///
/// let text = Text::read(b"SIZE 1 2 1\nPRESSES knock handle\nTEST handle").unwrap();
/// assert_eq!(text.bytes(), [1, 1, 2, 1, 4, 5, 1, 6]);
/// assert_eq!(text.names().press(0), "knock");
/// ```
#[derive(Clone, Debug, PartialEq, Eq)]
pub struct Text {
    pub(super) lines: Vec<Line>,
    names: Names,
    ended: bool,
}

/// The words of a line, before a comment.
pub(crate) struct Words<'a> {
    pub number: usize,
    pub first: &'a str,
    pub rest: Vec<&'a str>,
}

impl Text {
    /// Takes a text apart, or tells all its mistakes.
    pub fn read(source: &[u8]) -> Result<Self, Mistakes> {
        if mistakes::is_utf16(source) {
            let told = Mistake::new(1, "the text is in UTF-16; save it as UTF-8");
            return Err(Mistakes::of(vec![told]).unwrap_err());
        }
        let source = source.strip_prefix("\u{FEFF}".as_bytes()).unwrap_or(source);
        let mut wrong = control_bytes(source);
        let source = String::from_utf8_lossy(source);
        let (mut namings, mut commands) = (Vec::new(), Vec::new());
        for words in worded(&source) {
            match Naming::of(words.number, words.first, &words.rest) {
                Some(naming) => namings.push(naming),
                None => commands.push(words),
            }
        }
        let (names, mistakes) = naming::collect(&namings, sizes(&commands).as_ref());
        wrong.extend(mistakes);
        let mut lines = Vec::new();
        for words in &commands {
            match spell(words, &names) {
                Ok(line) => lines.push(line),
                Err(what) => wrong.push(Mistake::new(words.number, what)),
            }
        }
        Mistakes::of(wrong)?;
        let ended = lines.last().is_some_and(|line| line.ends);
        Ok(Text {
            lines,
            names,
            ended,
        })
    }

    /// The bytes that it spells, whatever reading makes of them.
    #[must_use]
    pub fn bytes(&self) -> Vec<u8> {
        let lines = self.lines.iter().flat_map(|line| &line.bytes);
        let end = (!self.ended).then_some(&END);
        lines.chain(end).copied().collect()
    }

    /// The names that it gives.
    #[must_use]
    pub fn names(&self) -> &Names {
        &self.names
    }

    /// The number of the line that spells the byte at a place, if one does.
    #[must_use]
    pub fn line_at(&self, place: usize) -> Option<usize> {
        let mut end = 0;
        let line = self.lines.iter().find(|line| {
            end += line.bytes.len();
            place < end
        });
        line.map(|line| line.number)
    }

    /// The text with SIZE and QUIET first, then its RULEs, FAULTs and STARTs, each kind ascending, then the rest as it
    /// stands. Lines keep their numbers.
    #[must_use]
    pub fn sorted(mut self) -> Self {
        self.lines.sort_by_key(|line| order::key(&line.bytes));
        self
    }
}

/// Bytes that stand in no text, the first of each line.
pub(crate) fn control_bytes(source: &[u8]) -> Vec<Mistake> {
    let lines = source.split(|&byte| byte == b'\n').enumerate();
    let first = |line: &[u8]| {
        line.iter()
            .copied()
            .find(|&byte| mistakes::is_control(byte))
    };
    lines
        .filter_map(|(i, line)| Some(Mistake::new(i + 1, mistakes::control(first(line)?))))
        .collect()
}

/// The lines that have words.
pub(crate) fn worded(source: &str) -> impl Iterator<Item = Words<'_>> {
    source.split('\n').enumerate().filter_map(|(i, line)| {
        let told = line.split('#').next()?;
        let mut words = told.split_whitespace();
        let (number, first) = (i + 1, words.next()?);
        if told.bytes().any(mistakes::is_control) {
            return None;
        }
        let rest = words.collect();
        Some(Words {
            number,
            first,
            rest,
        })
    })
}

/// The operands of the first SIZE that has all of them.
fn sizes(commands: &[Words]) -> Option<[u8; 3]> {
    let spelled = commands
        .iter()
        .filter_map(|words| spell(words, &Names::default()).ok());
    spelled.into_iter().find_map(|line| match line.bytes[..] {
        [SIZE, n, k, m] => Some([n, k, m]),
        _ => None,
    })
}

/// The bytes of a line.
fn spell(words: &Words, names: &Names) -> Result<Line, String> {
    let bytes = match words.first.eq_ignore_ascii_case(HEX) {
        true => words
            .rest
            .iter()
            .map(|digits| hexadecimal(digits))
            .collect::<Result<_, _>>()?,
        false => command(words.first, &words.rest, names)?,
    };
    let (number, ends) = (words.number, order::ends(words.first));
    Ok(Line {
        number,
        bytes,
        ends,
    })
}

/// The bytes of a command.
fn command(word: &str, operands: &[&str], names: &Names) -> Result<Vec<u8>, String> {
    let kind = Kind::named(word).ok_or_else(|| format!("{word} is no command"))?;
    if kind.byte == TEST {
        let presses = operands
            .iter()
            .map(|word| naming::value(names, "press", word));
        let presses: Vec<u8> = presses.collect::<Result<_, _>>()?;
        let presses = presses.into_iter().flat_map(|x| [PRESS, x]);
        return Ok([TEST].into_iter().chain(presses).collect());
    }
    if operands.len() != kind.operands.len() {
        return Err(wrong_number(kind, operands.len()));
    }
    let values = kind
        .operands
        .iter()
        .zip(operands)
        .map(|(what, word)| naming::value(names, what, word));
    let values: Vec<u8> = values.collect::<Result<_, _>>()?;
    Ok([&[kind.byte], &values[..]].concat())
}

fn wrong_number(kind: &Kind, given: usize) -> String {
    let word = kind.word;
    match kind.operands {
        [] => format!("{word} takes no operands, not {given}"),
        [only] => format!("{word} takes one operand ({only}), not {given}"),
        all => format!(
            "{word} takes {} operands ({}), not {given}",
            all.len(),
            all.join(", ")
        ),
    }
}

pub(crate) fn hexadecimal(digits: &str) -> Result<u8, String> {
    let number = digits.len() == 2 && digits.bytes().all(|digit| digit.is_ascii_hexdigit());
    let value = number.then(|| u8::from_str_radix(digits, 16).ok());
    value
        .flatten()
        .ok_or_else(|| format!("{digits} is not two hexadecimal digits"))
}
