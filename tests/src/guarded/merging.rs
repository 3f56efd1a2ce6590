//! Merge.

use super::memory::{buffer, bytes, Answer};
use crate::merging::Turned;
use crate::reference::Refusal;
use ranthelo::raw::merge;

/// Merge with a buffer of so many bytes.
pub fn checked_merge(first: &[u8], second: &[u8], room: usize) -> Result<Vec<u8>, Turned> {
    let (first, second) = (bytes(first), bytes(second));
    let merged = checked(first.content(), second.content(), room);
    first.untouched();
    second.untouched();
    merged
}

/// A sheet merged with the very same bytes.
pub fn checked_merge_itself(sheet: &[u8], room: usize) -> Result<Vec<u8>, Turned> {
    let sheet = bytes(sheet);
    let merged = checked(sheet.content(), sheet.content(), room);
    sheet.untouched();
    merged
}

fn checked(first: &[u8], second: &[u8], room: usize) -> Result<Vec<u8>, Turned> {
    let mut buffer = buffer(room);
    let mut answer: Answer<4> = Answer::new();
    merge(first, second, buffer.content_mut(), answer.lend());
    let [number, place, sheet, length] = *answer.words() else {
        unreachable!("four words");
    };
    let merged = buffer.front(length).to_vec();
    if number == 0 {
        assert_eq!(
            (place, sheet),
            (0, 0),
            "a place or a sheet without a refusal"
        );
        return Ok(merged);
    }
    assert_eq!(length, 0, "a refusal tells a length");
    let refusal = Refusal { number, place };
    Err(Turned { sheet, refusal })
}
