//! Sheets from tables, from a seed, and in first-reached form.

use super::memory::{buffer, bytes, Answer, Guarded};
use crate::drawing::Tables;
use crate::reference::Refusal;
use ranthelo::raw;

const GUARD_LENGTH: u16 = 0xA7A7;

/// The sheet of the tables, in a buffer of so many bytes.
pub fn checked_write(tables: &Tables, room: usize) -> Result<Vec<u8>, Refusal> {
    let (rules, faults) = (bytes(&tables.rules), bytes(&tables.faults));
    let starts = bytes(&tables.starts);
    let lengths = Guarded::new(&tables.lengths, GUARD_LENGTH);
    let presses = bytes(&tables.presses);
    let mut buffer = buffer(room);
    let mut answer = Answer::new();
    let lent = raw::Tables {
        size: tables.size,
        quiet: tables.quiet,
        rules: rules.content(),
        faults: faults.content(),
        starts: starts.content(),
        lengths: lengths.content(),
        presses: presses.content(),
    };
    raw::write(lent, buffer.content_mut(), answer.lend());
    for table in [rules, faults, starts, presses] {
        table.untouched();
    }
    lengths.untouched();
    written(buffer, answer)
}

/// The sheet of a seed, in a buffer of so many bytes.
pub fn checked_generate(seed: u32, size: [u8; 3], room: usize) -> Result<Vec<u8>, Refusal> {
    let mut buffer = buffer(room);
    let mut answer = Answer::new();
    raw::generate(seed, size, buffer.content_mut(), answer.lend());
    written(buffer, answer)
}

/// The sheet in first-reached form, in a buffer of so many bytes.
pub fn checked_renumber(sheet: &[u8], room: usize) -> Result<Vec<u8>, Refusal> {
    let sheet = bytes(sheet);
    let mut buffer = buffer(room);
    let mut answer = Answer::new();
    raw::renumber(sheet.content(), buffer.content_mut(), answer.lend());
    sheet.untouched();
    written(buffer, answer)
}

/// The sheet at the front of the buffer; nothing else in it has changed.
fn written(buffer: Guarded<u8>, answer: Answer<3>) -> Result<Vec<u8>, Refusal> {
    let result = answer.result().map(|words| words[0]);
    let sheet = buffer.front(result.unwrap_or(0)).to_vec();
    result.map(|_| sheet)
}
