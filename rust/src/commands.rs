//! The commands of a string of bytes, told apart by their widths alone: it need not be a sheet that is accepted.

/// The numbers of states, presses and sounds.
pub const SIZE: u8 = 0x01;
/// A specified transition.
pub const RULE: u8 = 0x02;
/// What production may do in its place.
pub const FAULT: u8 = 0x03;
/// The begin of a test.
pub const TEST: u8 = 0x04;
/// A press of a test.
pub const PRESS: u8 = 0x05;
/// The last byte.
pub const END: u8 = 0x06;
/// A state in which a board may wake.
pub const START: u8 = 0x07;
/// A press without a RULE gives sound 0 and stays.
pub const QUIET: u8 = 0x08;

/// A command of the format: its byte, its word, and what its operands are.
#[derive(Debug, PartialEq, Eq)]
pub struct Kind {
    /// The command byte.
    pub byte: u8,
    /// Its word in a text.
    pub word: &'static str,
    /// What each operand is.
    pub operands: &'static [&'static str],
}

const TRANSITION: &[&str] = &["state", "press", "sound", "next state"];

/// The commands of the format, by their bytes.
pub static KINDS: [Kind; 8] = [
    kind(SIZE, "SIZE", &["states", "presses", "sounds"]),
    kind(RULE, "RULE", TRANSITION),
    kind(FAULT, "FAULT", TRANSITION),
    kind(TEST, "TEST", &[]),
    kind(PRESS, "PRESS", &["press"]),
    kind(END, "END", &[]),
    kind(START, "START", &["state"]),
    kind(QUIET, "QUIET", &[]),
];

const fn kind(byte: u8, word: &'static str, operands: &'static [&'static str]) -> Kind {
    Kind {
        byte,
        word,
        operands,
    }
}

impl Kind {
    /// The kind of a command byte, if there is one.
    #[must_use]
    pub fn of(byte: u8) -> Option<&'static Kind> {
        KINDS.iter().find(|kind| kind.byte == byte)
    }

    /// The kind of a word, in capital or small letters.
    #[must_use]
    pub fn named(word: &str) -> Option<&'static Kind> {
        KINDS
            .iter()
            .find(|kind| kind.word.eq_ignore_ascii_case(word))
    }
}

/// A command as it stands in the bytes: one byte of an unknown kind, or a known command with its operands, as many of
/// them as are there.
#[derive(Clone, Copy, Debug, PartialEq, Eq)]
pub struct Command<'a> {
    /// The offset of its first byte.
    pub place: usize,
    /// Its bytes, at least one.
    pub bytes: &'a [u8],
}

impl<'a> Command<'a> {
    /// Its first byte; 0 if it has none.
    #[must_use]
    pub fn byte(self) -> u8 {
        self.bytes.first().copied().unwrap_or(0)
    }

    /// The operands that are there.
    #[must_use]
    pub fn operands(self) -> &'a [u8] {
        self.bytes.get(1..).unwrap_or_default()
    }

    /// Its kind, if that is known.
    #[must_use]
    pub fn kind(self) -> Option<&'static Kind> {
        Kind::of(self.byte())
    }

    /// Its kind, if that is known and all of its operands are there.
    #[must_use]
    pub fn whole(self) -> Option<&'static Kind> {
        self.kind()
            .filter(|kind| kind.operands.len() == self.operands().len())
    }

    /// The offset after its last byte.
    #[must_use]
    pub fn end(self) -> usize {
        self.place.saturating_add(self.bytes.len())
    }
}

/// The commands of some bytes, from the first byte to the last.
///
/// ```
/// let list: Vec<&[u8]> = ranthelo::commands::commands(&[4, 5, 1, 0, 2, 9]).map(|c| c.bytes).collect();
/// assert_eq!(list, [&[4][..], &[5, 1], &[0], &[2, 9]]);
/// ```
pub fn commands(bytes: &[u8]) -> impl Iterator<Item = Command<'_>> {
    let mut place = 0;
    std::iter::from_fn(move || {
        let rest = bytes.get(place..)?;
        let operands = Kind::of(*rest.first()?).map_or(0, |kind| kind.operands.len());
        let bytes = &rest[..rest.len().min(1 + operands)];
        let command = Command { place, bytes };
        place = command.end();
        Some(command)
    })
}
