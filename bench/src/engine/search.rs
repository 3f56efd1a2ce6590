//! The first survivor in dictionary order.

use super::notes::{Notes, Prefix, UNSETTLED};
use super::tables::Tables;
use crate::plain;
use ranthelo_tests::enumeration::Survivor;

pub enum Searched {
    Nothing,
    First(Survivor),
    GaveUp,
}

/// A way to refute prefixes.
pub trait Attempt {
    fn tables(&self) -> &Tables<'_>;
    fn notes(&self) -> &Notes;
    /// Whether it is found that no mutant with the prefix survives.
    fn refutes(&mut self, prefix: &Prefix) -> bool;
    fn gives_up(&self) -> bool;
}

/// The first survivor of all.
pub fn search(attempt: &mut impl Attempt) -> Searched {
    from(attempt, &[UNSETTLED; 32], 0)
}

/// The first survivor with the first i choices of a prefix.
fn from(attempt: &mut impl Attempt, prefix: &Prefix, i: usize) -> Searched {
    if !attempt.notes().witnessed(prefix) && attempt.refutes(prefix) {
        return Searched::Nothing;
    }
    if i == attempt.tables().suspects {
        let survivor = survivor(attempt.tables().sheet, &prefix[..i]);
        return survivor.map_or(Searched::Nothing, Searched::First);
    }
    if attempt.gives_up() {
        return Searched::GaveUp;
    }
    let mut longer = *prefix;
    for c in 0..attempt.tables().counts[i] {
        longer[i] = c;
        match from(attempt, &longer, i + 1) {
            Searched::Nothing => {}
            other => return other,
        }
    }
    Searched::Nothing
}

/// A mutant as a survivor, if it is one.
fn survivor(sheet: &plain::Tables<'_>, choices: &[u16]) -> Option<Survivor> {
    let board: Vec<u8> = choices.iter().map(|&choice| choice as u8).collect();
    let mutant = sheet.mutant(&board).ok()?;
    if plain::failure(sheet, &mutant).is_some() {
        return None;
    }
    let mut sequence = [0; 256];
    let length = plain::distinguish(sheet, &mutant, &mut sequence)?;
    let sequence = sequence[..length].to_vec();
    Some(Survivor { board, sequence })
}
