//! Make.

use super::memory::{buffer, bytes, Answer};
use crate::enumeration::Made;
use crate::reference::Refusal;
use ranthelo::raw::make;

/// Make with a buffer of so many bytes: the made sheet, and how many tests were appended.
pub fn checked_make(sheet: &[u8], room: usize) -> Result<Made, Refusal> {
    let sheet = bytes(sheet);
    let mut buffer = buffer(room);
    let mut answer = Answer::new();
    make(sheet.content(), buffer.content_mut(), answer.lend());
    sheet.untouched();
    let result = answer.result().map(|words| (words[0], words[1]));
    let made = buffer.front(result.map_or(0, |(length, _)| length));
    result.map(|(_, appended)| Made {
        sheet: made.to_vec(),
        appended,
    })
}
