//! The order of a sheet's rows.

use super::HEX;
use crate::commands::{END, FAULT, QUIET, RULE, SIZE, START};

/// What rows are sorted by: SIZE, QUIET, RULEs, FAULTs and STARTs, these three ascending; the rest stays as it is,
/// after them.
pub type Key = (u8, Vec<u8>);

/// The kind of a row that stands where it stands.
pub const REST: u8 = 5;
/// The kind of the last row.
pub const LAST: u8 = 6;

/// The key of a row of bytes.
pub fn key(row: &[u8]) -> Key {
    match row {
        [SIZE, _, _, _] => (0, Vec::new()),
        [QUIET] => (1, Vec::new()),
        [RULE, operands @ ..] if operands.len() == 4 => (2, operands.to_vec()),
        [FAULT, operands @ ..] if operands.len() == 4 => (3, operands.to_vec()),
        [START, operands @ ..] if operands.len() == 1 => (4, operands.to_vec()),
        _ => (REST, Vec::new()),
    }
}

/// Whether a line with this word has no END added after it.
pub fn ends(word: &str) -> bool {
    [HEX, "END"]
        .iter()
        .any(|end| end.eq_ignore_ascii_case(word))
}

/// Whether a row is an END.
pub fn is_end(row: &[u8]) -> bool {
    row == [END]
}
