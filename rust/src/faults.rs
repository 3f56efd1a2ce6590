//! Fault models: which FAULTs a machine gets.

use crate::machine::{Machine, Move};

/// In which ways a FAULT differs from its RULE.
#[derive(Clone, Copy, Debug, Default, PartialEq, Eq)]
pub struct Model {
    /// Another sound, the same next state.
    pub output: bool,
    /// The same sound, another next state.
    pub transfer: bool,
    /// Another sound and another next state.
    pub both: bool,
}

impl Model {
    /// Any other sound and next state.
    pub const ALL: Model = Model {
        output: true,
        transfer: true,
        both: true,
    };

    fn has(self, rule: Move, fault: Move) -> bool {
        match (rule.sound != fault.sound, rule.next != fault.next) {
            (true, false) => self.output,
            (false, true) => self.transfer,
            (true, true) => self.both,
            (false, false) => false,
        }
    }
}

/// The rows (state, press, sound, next state) of a model's FAULTs, ascending, but for those that the machine has.
///
/// ```
/// use ranthelo::{faults, machine::Machine, text::assemble};
///
/// let sheet = assemble(b"SIZE 1 1 3\n RULE 0 0 1 0\n FAULT 0 0 0 0")?;
/// let model = faults::Model { output: true, ..Default::default() };
/// assert_eq!(faults::rows(&Machine::of(&sheet)?, model), [[0, 0, 2, 0]]);
/// # Ok::<(), Box<dyn std::error::Error>>(())
/// ```
pub fn rows(machine: &Machine, model: Model) -> Vec<[u8; 4]> {
    let moves = || {
        (0..machine.sounds)
            .flat_map(|sound| (0..machine.states).map(move |next| Move { sound, next }))
    };
    let mut rows = Vec::new();
    for (pair, &rule) in &machine.rules {
        let there = machine.faults.get(pair).map_or(&[][..], Vec::as_slice);
        let new = moves().filter(|to| model.has(rule, *to) && !there.contains(to));
        rows.extend(new.map(|to| [pair.0, pair.1, to.sound, to.next]));
    }
    rows
}
