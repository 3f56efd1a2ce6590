//! The mutants that pass a suite, one after another, for sheets with too many to try them all: choice after
//! choice, and back where a test already fails.

use crate::enumeration::Machine;

/// A search that gives up after so many steps.
pub struct Passing<'a> {
    machine: &'a Machine,
    counts: Vec<usize>,
    pub steps: usize,
}

/// It gave up.
#[derive(Debug)]
pub struct GaveUp;

impl<'a> Passing<'a> {
    pub fn new(machine: &'a Machine, steps: usize) -> Self {
        Passing {
            machine,
            counts: machine.counts(),
            steps,
        }
    }

    /// The first mutant that passes and stands after the last one, if there is one.
    pub fn next(&mut self, last: Option<&[u8]>) -> Result<Option<Vec<u8>>, GaveUp> {
        let mut begun = Vec::new();
        let found = self.extend(&mut begun, last)?;
        Ok(found.then_some(begun))
    }

    /// Extends the choices to those of the first such mutant. `along` is the last mutant as long as the choices are its
    /// own.
    fn extend(&mut self, begun: &mut Vec<u8>, along: Option<&[u8]>) -> Result<bool, GaveUp> {
        self.steps = self.steps.checked_sub(1).ok_or(GaveUp)?;
        if self.machine.fails(begun) {
            return Ok(false);
        }
        let slot = begun.len();
        if slot == self.counts.len() {
            return Ok(along.is_none());
        }
        let least = along.map_or(0, |last| last[slot].into());
        for choice in least..self.counts[slot] {
            begun.push(choice as u8);
            if self.extend(begun, along.filter(|_| choice == least))? {
                return Ok(true);
            }
            begun.pop();
        }
        Ok(false)
    }
}
