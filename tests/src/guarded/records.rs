//! Check a record, and explain one.

use super::memory::{buffer, bytes, flag, Answer};
use crate::records::{Explained, Recorded};
use crate::reference::Refusal;
use ranthelo::raw::{record, record_board};

/// Check a record.
pub fn checked_record(sheet: &[u8], log: &[u8]) -> Result<Recorded, Refusal> {
    let (sheet, log) = (bytes(sheet), bytes(log));
    let mut answer = Answer::new();
    record(sheet.content(), log.content(), answer.lend());
    sheet.untouched();
    log.untouched();
    answer.result().map(|words| {
        let differs = flag(words[0]).then_some(words[1]);
        assert!(
            differs.is_some() || words[1] == 0,
            "a place without a difference"
        );
        Recorded {
            differs,
            given: flag(words[2]),
        }
    })
}

/// Explain a record with buffers of so many bytes; a board has `open_pairs` bytes.
pub fn checked_record_board(
    sheet: &[u8],
    log: &[u8],
    board_room: usize,
    sequence_room: usize,
    open_pairs: usize,
) -> Result<Option<Explained>, Refusal> {
    let (sheet, log) = (bytes(sheet), bytes(log));
    let (mut board, mut sequence) = (buffer(board_room), buffer(sequence_room));
    let mut answer = Answer::new();
    record_board(
        sheet.content(),
        log.content(),
        board.content_mut(),
        sequence.content_mut(),
        answer.lend(),
    );
    sheet.untouched();
    log.untouched();
    let told = answer
        .result()
        .map(|words| (flag(words[0]), flag(words[1]), words[2]));
    let (taken, departs, length) = told.unwrap_or((false, false, 0));
    assert!(taken || !departs, "no board, yet it departs");
    assert!(departs || length == 0, "no departure, yet a length");
    let board = board.front(if taken { open_pairs } else { 0 }).to_vec();
    let sequence = sequence.front(length).to_vec();
    told.map(|_| {
        taken.then(|| Explained {
            board,
            sequence: departs.then_some(sequence),
        })
    })
}
