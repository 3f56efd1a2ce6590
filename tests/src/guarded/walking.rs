//! Take, and a test added.

use super::memory::{buffer, bytes, flag, Answer};
use crate::enumeration::Passing;
use crate::reference::Refusal;
use ranthelo::raw::{add_test, take};

/// Take from a place with buffers of so many bytes; a board has `open_pairs` bytes.
pub fn checked_take(
    sheet: &[u8],
    place: u8,
    last: &[u8],
    rooms: (usize, usize),
    open_pairs: usize,
) -> Result<Option<Passing>, Refusal> {
    let (sheet, last) = (bytes(sheet), bytes(last));
    let (mut board, mut sequence) = (buffer(rooms.0), buffer(rooms.1));
    let mut answer = Answer::new();
    take(
        sheet.content(),
        place,
        last.content(),
        board.content_mut(),
        sequence.content_mut(),
        answer.lend(),
    );
    sheet.untouched();
    last.untouched();
    let result = answer.result();
    let (taken, departs, length) = result.map_or((false, false, 0), |words| {
        (flag(words[0]), flag(words[1]), words[2])
    });
    assert!(departs || length == 0, "a length without a sequence");
    assert!(taken || !departs, "the end departs");
    let board = board.front(if taken { open_pairs } else { 0 }).to_vec();
    let sequence = sequence.front(length).to_vec();
    result.map(|_| {
        taken.then(|| Passing {
            board,
            sequence: departs.then_some(sequence),
        })
    })
}

/// Add a test with a buffer of so many bytes: the longer sheet.
pub fn checked_add_test(sheet: &[u8], presses: &[u8], room: usize) -> Result<Vec<u8>, Refusal> {
    let (sheet, presses) = (bytes(sheet), bytes(presses));
    let mut buffer = buffer(room);
    let mut answer = Answer::new();
    add_test(
        sheet.content(),
        presses.content(),
        buffer.content_mut(),
        answer.lend(),
    );
    sheet.untouched();
    presses.untouched();
    let result = answer.result().map(|words| words[0]);
    let longer = buffer.front(result.unwrap_or(0)).to_vec();
    result.map(|_| longer)
}
