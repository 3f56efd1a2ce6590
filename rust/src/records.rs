//! A lock's record: bytes, and their text form.
//!
//! ```text
//! PULSE 0/0 1/1     # a fresh start, then presses with their sounds
//! SEEN 1 1          # one press and its sound, on a line of its own
//! ```
//!
//! Presses and sounds may be names that the sheet's text gives; `HEX 11 00` spells any bytes.

use crate::text::{
    Mistake, Mistakes, Words, control_bytes, hexadecimal, is_text, spelled as hex, worded,
};
use crate::{Named, Names};

/// The byte of a fresh start.
pub const PULSE: u8 = 0x10;
/// The byte before a press and its sound.
pub const SEEN: u8 = 0x11;

/// A record, and the lines of the text that it came from.
#[derive(Clone, Debug, Default, PartialEq, Eq)]
pub struct Record {
    /// Its bytes, whatever the library makes of them.
    pub bytes: Vec<u8>,
    /// Where each line of the text ends in the bytes, with its number.
    lines: Vec<(usize, usize)>,
}

/// Where a command stands in a record.
#[derive(Clone, Copy, Debug, PartialEq, Eq)]
pub struct Place {
    /// How many PULSEs stand up to it, less one; from 0.
    pub pulse: usize,
    /// How many SEENs stand between that PULSE and it.
    pub position: usize,
    /// The line of the text, from 1, if it came from one.
    pub line: Option<usize>,
}

impl Record {
    /// Takes a record in either form; presses and sounds of a text may be called by names.
    ///
    /// ```
    /// use ranthelo::{Names, records::Record};
    ///
    /// let record = Record::read(b"PULSE 0/0 1/1\nSEEN 1 0", &Names::default()).unwrap();
    /// assert_eq!(record.bytes, [0x10, 0x11, 0, 0, 0x11, 1, 1, 0x11, 1, 0]);
    /// let place = record.place(7);
    /// assert_eq!((place.pulse, place.position, place.line), (0, 2, Some(2)));
    /// ```
    pub fn read(source: &[u8], names: &Names) -> Result<Self, Mistakes> {
        let mut record = Record::default();
        if !is_text(source) {
            record.bytes = source.to_vec();
            return Ok(record);
        }
        let mut wrong = control_bytes(source);
        for words in worded(&String::from_utf8_lossy(source)) {
            match spell(&words, names) {
                Ok(bytes) => record.bytes.extend(bytes),
                Err(what) => wrong.push(Mistake::new(words.number, what)),
            }
            record.lines.push((record.bytes.len(), words.number));
        }
        Mistakes::of(wrong)?;
        Ok(record)
    }

    /// The presses between the last PULSE and an offset.
    #[must_use]
    pub fn presses_before(&self, offset: usize) -> Vec<u8> {
        let (mut presses, mut at) = (Vec::new(), 0);
        while at < offset.min(self.bytes.len()) {
            match self.bytes.get(at..) {
                Some([PULSE, ..]) => presses.clear(),
                Some([SEEN, press, ..]) => presses.push(*press),
                _ => {}
            }
            at += if self.bytes.get(at) == Some(&SEEN) {
                3
            } else {
                1
            };
        }
        presses
    }

    /// Where the command at an offset stands.
    #[must_use]
    pub fn place(&self, offset: usize) -> Place {
        let (mut pulses, mut position, mut at) = (0_usize, 0, 0);
        while at < offset.min(self.bytes.len()) {
            match self.bytes.get(at) {
                Some(&PULSE) => (pulses, position, at) = (pulses + 1, 0, at + 1),
                Some(&SEEN) => (position, at) = (position + 1, at + 3),
                _ => at += 1,
            }
        }
        let line = self
            .lines
            .iter()
            .find(|(end, _)| offset < *end)
            .map(|(_, line)| *line);
        Place {
            pulse: pulses.saturating_sub(1),
            position,
            line,
        }
    }
}

/// The bytes of a line.
fn spell(words: &Words, names: &Names) -> Result<Vec<u8>, String> {
    let word = |name: &str| words.first.eq_ignore_ascii_case(name);
    let seen = |press: &str, sound: &str| {
        let (press, sound) = (
            names.value(Named::Press, press)?,
            names.value(Named::Sound, sound)?,
        );
        Ok([SEEN, press, sound])
    };
    match words.rest[..] {
        _ if word("HEX") => words
            .rest
            .iter()
            .map(|digits| hexadecimal(digits))
            .collect(),
        [press, sound] if word("SEEN") => seen(press, sound).map(Vec::from),
        ref rest if word("SEEN") => Err(format!(
            "SEEN takes 2 operands (press, sound), not {}",
            rest.len()
        )),
        ref rest if word("PULSE") => {
            let mut bytes = vec![PULSE];
            for pair in rest {
                let (press, sound) = pair
                    .split_once('/')
                    .ok_or_else(|| format!("{pair} is no press/sound"))?;
                bytes.extend(seen(press, sound)?);
            }
            Ok(bytes)
        }
        _ => Err(format!("{} is no command of a record", words.first)),
    }
}

/// The text that spells a record, a line for each PULSE.
///
/// ```
/// use ranthelo::{Names, records::spelled};
///
/// let bytes = [0x10, 0x11, 0, 0, 0x11, 1, 1, 0x10, 0x12];
/// assert_eq!(spelled(&bytes, &Names::default()), "PULSE 0/0 1/1\nPULSE\nHEX 12\n");
/// ```
#[must_use]
pub fn spelled(bytes: &[u8], names: &Names) -> String {
    let (mut lines, mut left): (Vec<String>, &[u8]) = (Vec::new(), bytes);
    loop {
        left = match (left, lines.last_mut()) {
            ([], _) => break,
            ([PULSE, rest @ ..], _) => {
                lines.push("PULSE".to_string());
                rest
            }
            ([SEEN, press, sound, rest @ ..], Some(line)) if line.starts_with("PULSE") => {
                *line += &format!(" {}/{}", names.press(*press), names.sound(*sound));
                rest
            }
            ([SEEN, press, sound, rest @ ..], _) => {
                lines.push(format!(
                    "SEEN {} {}",
                    names.press(*press),
                    names.sound(*sound)
                ));
                rest
            }
            ([byte, rest @ ..], _) => {
                lines.push(format!("HEX {}", hex(&[*byte])));
                rest
            }
        };
    }
    lines.iter().map(|line| format!("{line}\n")).collect()
}
