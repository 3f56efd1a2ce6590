//! Run, first failed test, a tray of boards and compare.

use super::memory::{buffer, bytes, flag, Answer, Guarded};
use crate::enumeration::{Failed, Failure, Ran, Used};
use crate::reference::Refusal;
use ranthelo::raw::{compare, first_failed, run, tray};

fn used(words: &[usize]) -> Used {
    let (number, set) = (words[0], words[1]);
    Used { number, set }
}

/// Run with a buffer of `room` bytes: the sounds, and the open pairs used.
pub fn checked_run(
    sheet: &[u8],
    board: &[u8],
    presses: &[u8],
    room: usize,
) -> Result<Ran, Refusal> {
    let (sheet, board, presses) = (bytes(sheet), bytes(board), bytes(presses));
    let mut buffer = buffer(room);
    let mut answer = Answer::new();
    run(
        sheet.content(),
        board.content(),
        presses.content(),
        buffer.content_mut(),
        answer.lend(),
    );
    sheet.untouched();
    board.untouched();
    presses.untouched();
    let result = answer.result();
    let written = result.map_or(0, |_| presses.content().len());
    let sounds = buffer.front(written).to_vec();
    let used = used(result?);
    Ok(Ran { sounds, used })
}

pub fn checked_first_failed(sheet: &[u8], board: &[u8]) -> Result<Failed, Refusal> {
    let (sheet, board) = (bytes(sheet), bytes(board));
    let mut answer = Answer::new();
    first_failed(sheet.content(), board.content(), answer.lend());
    sheet.untouched();
    board.untouched();
    let words = answer.result()?;
    let (test, position) = (words[1], words[2]);
    let used = used(&words[3..]);
    if flag(words[0]) {
        let failure = Some(Failure { test, position });
        return Ok(Failed { failure, used });
    }
    assert_eq!((test, position), (0, 0), "no test failed, yet one is told");
    let failure = None;
    Ok(Failed { failure, used })
}

/// Compare with a buffer of `room` bytes: the shortest departing sequence, or none.
pub fn checked_compare(
    sheet: &[u8],
    board: &[u8],
    room: usize,
) -> Result<Option<Vec<u8>>, Refusal> {
    let (sheet, board) = (bytes(sheet), bytes(board));
    let mut buffer = buffer(room);
    let mut answer = Answer::new();
    compare(
        sheet.content(),
        board.content(),
        buffer.content_mut(),
        answer.lend(),
    );
    sheet.untouched();
    board.untouched();
    let result = answer.result();
    let length = result.map_or(0, |words| words[1]);
    let sequence = buffer.front(length).to_vec();
    if flag(result?[0]) {
        return Ok(Some(sequence));
    }
    assert_eq!(length, 0, "the board conforms, yet a length is told");
    Ok(None)
}

/// A tray of boards with room for so many results: the first failed test of each, 65,535 for none.
pub fn checked_tray(
    sheet: &[u8],
    boards: usize,
    choices: &[u8],
    room: usize,
) -> Result<Vec<u16>, Refusal> {
    let (sheet, choices) = (bytes(sheet), bytes(choices));
    let filler: Vec<u16> = (0..room).map(|i| 0x8000 | (i * 7 + 3) as u16).collect();
    let mut results = Guarded::new(&filler, 0xA7A7);
    let mut answer = Answer::new();
    tray(
        sheet.content(),
        boards,
        choices.content(),
        results.content_mut(),
        answer.lend(),
    );
    sheet.untouched();
    choices.untouched();
    let result = answer.result().map(|words| assert!(words.is_empty()));
    let written = result.map_or(0, |()| boards);
    let numbers = results.front(written).to_vec();
    result.map(|()| numbers)
}
