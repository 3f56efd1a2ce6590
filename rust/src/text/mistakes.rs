//! What can't be taken for a text.

use std::error::Error;
use std::fmt;
use std::ops::Deref;

/// A line that can't be taken for a command, numbered from 1.
#[derive(Clone, Debug, PartialEq, Eq, PartialOrd, Ord)]
pub struct Mistake {
    /// The line, from 1.
    pub line: usize,
    /// What is wrong with it.
    pub what: String,
}

impl Mistake {
    pub(crate) fn new(line: usize, what: impl Into<String>) -> Self {
        let what = what.into();
        Mistake { line, what }
    }
}

impl fmt::Display for Mistake {
    fn fmt(&self, f: &mut fmt::Formatter) -> fmt::Result {
        write!(f, "line {}: {}", self.line, self.what)
    }
}

impl Error for Mistake {}

/// All mistakes of a text, by their lines; there is at least one.
#[derive(Clone, Debug, PartialEq, Eq)]
pub struct Mistakes(Vec<Mistake>);

impl Mistakes {
    /// The mistakes in the order of their lines, if there are any.
    pub(crate) fn of(mut all: Vec<Mistake>) -> Result<(), Self> {
        all.sort();
        match all.is_empty() {
            true => Ok(()),
            false => Err(Mistakes(all)),
        }
    }
}

impl Deref for Mistakes {
    type Target = [Mistake];

    fn deref(&self) -> &[Mistake] {
        &self.0
    }
}

/// `line 2: RULES is no command; line 3: 256 is not 0 to 255`
impl fmt::Display for Mistakes {
    fn fmt(&self, f: &mut fmt::Formatter) -> fmt::Result {
        let all: Vec<String> = self.iter().map(Mistake::to_string).collect();
        f.write_str(&all.join("; "))
    }
}

impl Error for Mistakes {}

/// Whether a byte stands in no text.
pub fn is_control(byte: u8) -> bool {
    byte < b' ' && !b"\t\n\r".contains(&byte) || byte == 0x7F
}

/// The bytes with which a text in UTF-16 begins.
pub fn is_utf16(input: &[u8]) -> bool {
    input.starts_with(&[0xFF, 0xFE]) || input.starts_with(&[0xFE, 0xFF])
}

/// What a byte is that stands in no text.
pub fn control(byte: u8) -> String {
    let what = match byte {
        0x00 => "a null",
        0x07 => "a bell",
        0x08 => "a backspace",
        0x0B => "a vertical tab",
        0x0C => "a form feed",
        0x1A => "an end-of-file mark",
        0x1B => "an escape",
        0x7F => "a delete",
        _ => "a control byte",
    };
    format!("byte {byte:02x}, {what}, stands in no text")
}
