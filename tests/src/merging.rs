//! One sheet from two, written from document 02 (Point 10) alone.

use crate::reference::{
    read, Refusal, Sheet, MOST_BYTES, MOST_FAULTS, MOST_OPEN_PAIRS, MOST_TESTS,
};

/// Why two sheets were turned away; a refusal on reading concerns sheet 1 or 2, any other 0.
#[derive(Clone, Copy, Debug, PartialEq, Eq)]
pub struct Turned {
    pub sheet: usize,
    pub refusal: Refusal,
}

/// A refusal that concerns neither sheet alone.
pub fn turned(number: usize) -> Turned {
    Turned {
        sheet: 0,
        refusal: Refusal { number, place: 0 },
    }
}

/// The merged sheet, for a buffer of so many bytes.
pub fn merge(first: &[u8], second: &[u8], room: usize) -> Result<Vec<u8>, Turned> {
    let read = |sheet, bytes: &[u8]| match read(bytes) {
        Ok(reading) => Ok(reading.sheet),
        Err(refusal) => Err(Turned { sheet, refusal }),
    };
    let (first, second) = (read(1, first)?, read(2, second)?);
    if room < MOST_BYTES {
        return Err(turned(16));
    }
    if !same_machine(&first, &second) {
        return Err(turned(21));
    }
    let merged = both(&first, &second);
    let figures = merged.summary();
    if figures.faults > MOST_FAULTS || figures.tests > MOST_TESTS {
        return Err(turned(8));
    }
    if figures.open_pairs > MOST_OPEN_PAIRS {
        return Err(turned(12));
    }
    let bytes = merged.encode();
    match bytes.len() > MOST_BYTES {
        true => Err(turned(1)),
        false => Ok(bytes),
    }
}

/// SIZE, QUIET and the RULEs are equal.
fn same_machine(first: &Sheet, second: &Sheet) -> bool {
    let size = |sheet: &Sheet| (sheet.states, sheet.presses, sheet.sounds);
    size(first) == size(second) && first.quiet == second.quiet && first.rules == second.rules
}

/// The faults and STARTs of both, and the first sheet's tests followed by the second's.
fn both(first: &Sheet, second: &Sheet) -> Sheet {
    Sheet {
        faults: &first.faults | &second.faults,
        starts: &first.starts | &second.starts,
        tests: [&first.tests[..], &second.tests].concat(),
        ..first.clone()
    }
}
