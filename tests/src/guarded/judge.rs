//! Judge.

use super::memory::{buffer, bytes, flag, Answer, Guarded};
use crate::enumeration::Survivor;
use crate::reference::Refusal;
use ranthelo::raw::{judge, judge_counting};

/// A count that no judgement gives.
const UNCOUNTED: u32 = u32::MAX - 0x5A;

/// Judge with buffers of so many bytes; a survivor's board has `open_pairs` bytes.
pub fn checked_judge(
    sheet: &[u8],
    board_room: usize,
    sequence_room: usize,
    open_pairs: usize,
) -> Result<Option<Survivor>, Refusal> {
    checked(sheet, board_room, sequence_room, open_pairs, judge)
}

/// The same with the count of nodes, which a refusal must leave as it was lent.
pub fn checked_judge_counting(
    sheet: &[u8],
    board_room: usize,
    sequence_room: usize,
    open_pairs: usize,
) -> Result<Option<Survivor>, Refusal> {
    let mut nodes = Guarded::new(&[UNCOUNTED], UNCOUNTED);
    let count = &mut nodes.content_mut()[0];
    let result = checked(
        sheet,
        board_room,
        sequence_room,
        open_pairs,
        |sheet, board, sequence, answer| judge_counting(sheet, board, sequence, answer, count),
    );
    nodes.front(usize::from(result.is_ok()));
    result
}

fn checked(
    sheet: &[u8],
    board_room: usize,
    sequence_room: usize,
    open_pairs: usize,
    call: impl FnOnce(&[u8], &mut [u8], &mut [u8], &mut [usize; 4]),
) -> Result<Option<Survivor>, Refusal> {
    let sheet = bytes(sheet);
    let (mut board, mut sequence) = (buffer(board_room), buffer(sequence_room));
    let mut answer = Answer::new();
    call(
        sheet.content(),
        board.content_mut(),
        sequence.content_mut(),
        answer.lend(),
    );
    sheet.untouched();
    let result = answer.result();
    let (survives, length) = result.map_or((false, 0), |words| (flag(words[0]), words[1]));
    if survives {
        return Ok(Some(Survivor {
            board: board.front(open_pairs).to_vec(),
            sequence: sequence.front(length).to_vec(),
        }));
    }
    assert_eq!(length, 0, "the suite is complete, yet a length is told");
    board.untouched();
    sequence.untouched();
    result.map(|_| None)
}
