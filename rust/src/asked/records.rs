//! Why a lock's record is refused.

use crate::machine::Machine;
use crate::records::{PULSE, SEEN};
use crate::text::spelled;

/// What is wrong with the command at a place of a record.
pub fn why(machine: &Machine, record: &[u8], place: usize) -> Option<String> {
    let rest = record.get(place..)?;
    Some(match *rest {
        [SEEN, press, ..] if press >= machine.presses => {
            format!("press {press} is not below {}", machine.presses)
        }
        [SEEN, _, sound, ..] if sound >= machine.sounds => {
            format!("sound {sound} is not below {}", machine.sounds)
        }
        [SEEN, _, _, ..] if !record[..place].contains(&PULSE) => {
            "SEEN stands before any PULSE".to_string()
        }
        [SEEN, ref operands @ ..] => format!(
            "operands of SEEN are missing: {} of 2 are there",
            operands.len()
        ),
        [byte, ..] => format!("{} is no command of a record", spelled(&[byte])),
        [] => return None,
    })
}
