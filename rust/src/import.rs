//! Machines that come from elsewhere: Mealy machines in Graphviz's DOT, as learners and benchmarks write them, and
//! KISS2.

mod dot;
mod kiss;
mod symbols;
mod tokens;

use crate::Names;
use crate::commands::{END, FAULT, RULE, SIZE, START};
use crate::text::{Mistake, Mistakes};
use std::collections::{BTreeMap, BTreeSet};
use symbols::Symbols;

/// A machine as a sheet without tests, whatever reading makes of it, and what its states, presses and sounds were
/// called.
#[derive(Clone, Debug, PartialEq, Eq)]
pub struct Imported {
    /// The sheet's bytes.
    pub sheet: Vec<u8>,
    /// The names; none for things that are the numbers from 0 on.
    pub names: Names,
}

/// A transition as it is written, with its line.
#[derive(Clone, Debug)]
struct Transition {
    line: usize,
    from: String,
    to: String,
    input: String,
    output: String,
    /// Whether it is a FAULT, and not a RULE.
    fault: bool,
}

/// What a file says.
#[derive(Clone, Debug, Default)]
struct Found {
    /// The states in the order in which they are met.
    states: Vec<(usize, String)>,
    /// The state to start in; the first if none is named.
    start: Option<String>,
    /// Other states in which a board may wake.
    wakings: Vec<String>,
    /// All inputs, if the file says so apart from its transitions.
    inputs: Vec<String>,
    transitions: Vec<Transition>,
}

/// Takes a machine from DOT or KISS2.
///
/// ```
/// use ranthelo::{import, text::disassemble_named};
///
/// let dot = br#"digraph { __start0 -> s0; s0 -> s1 [label="a/0"]; s1 -> s0 [label="a/1"]; }"#;
/// let imported = import::machine(dot).unwrap();
/// assert_eq!(
///     disassemble_named(&imported.sheet, &imported.names),
///     "SIZE 2 1 2\nSTATES s0 s1\nPRESSES a\nRULE s0 a 0 s1\nRULE s1 a 1 s0\n",
/// );
/// ```
pub fn machine(source: &[u8]) -> Result<Imported, Mistakes> {
    let text = String::from_utf8_lossy(source);
    let text = text.strip_prefix('\u{FEFF}').unwrap_or(&text);
    let dotted = |line: &str| line.trim_start().starts_with('.');
    let found = match () {
        () if text.lines().any(dotted) => kiss::read(text),
        () if text.contains('{') => dot::read(text),
        () => Err(vec![Mistake::new(1, "this is neither DOT nor KISS2")]),
    };
    let sheet = found.and_then(|found| found.sheet());
    sheet.map_err(|mistakes| Mistakes::of(mistakes).expect_err("a mistake"))
}

impl Found {
    /// Notes a state where it is not met yet.
    fn meet(&mut self, line: usize, state: &str) {
        if !self.states.iter().any(|(_, met)| met == state) {
            self.states.push((line, state.to_string()));
        }
    }

    /// The states with the first one first.
    fn in_order(&self) -> Vec<(usize, &str)> {
        let states = self
            .states
            .iter()
            .map(|(line, name)| (*line, name.as_str()));
        let (mut first, rest): (Vec<_>, Vec<_>) =
            states.partition(|(_, name)| Some(*name) == self.start.as_deref());
        first.extend(rest);
        first
    }

    fn sheet(&self) -> Result<Imported, Vec<Mistake>> {
        if self.transitions.is_empty() {
            return Err(vec![Mistake::new(1, "the machine has no transition")]);
        }
        let met = |pick: fn(&Transition) -> &String| {
            self.transitions
                .iter()
                .map(move |one| (one.line, pick(one).as_str()))
        };
        let inputs = self
            .inputs
            .iter()
            .map(|input| (1, input.as_str()))
            .chain(met(|one| &one.input));
        let states = Symbols::of("states", self.in_order())?;
        let (inputs, outputs) = (
            Symbols::of("inputs", inputs)?,
            Symbols::of("outputs", met(|one| &one.output))?,
        );
        let (rules, faults) = self.rows(&states, &inputs, &outputs)?;
        let starts: BTreeSet<u8> = self
            .wakings
            .iter()
            .map(|state| states.number(state))
            .collect();
        let mut sheet = vec![SIZE, states.size(), inputs.size(), outputs.size()];
        sheet.extend(
            rules
                .iter()
                .flat_map(|(&[s, x], &[o, t])| [RULE, s, x, o, t]),
        );
        sheet.extend(faults.iter().flat_map(|&[s, x, o, t]| [FAULT, s, x, o, t]));
        sheet.extend(starts.iter().flat_map(|&state| [START, state]));
        sheet.push(END);
        let (states, presses, sounds) = (states.names(), inputs.names(), outputs.names());
        let names = Names {
            states,
            presses,
            sounds,
        };
        Ok(Imported { sheet, names })
    }

    /// RULEs by their pairs, and FAULTs. Two RULEs at a pair are a mistake, unless they are the same.
    #[allow(clippy::type_complexity)]
    fn rows(
        &self,
        states: &Symbols,
        inputs: &Symbols,
        outputs: &Symbols,
    ) -> Result<(BTreeMap<[u8; 2], [u8; 2]>, BTreeSet<[u8; 4]>), Vec<Mistake>> {
        let (mut rules, mut faults, mut wrong) = (BTreeMap::new(), BTreeSet::new(), Vec::new());
        for one in &self.transitions {
            let [s, t] = [&one.from, &one.to].map(|state| states.number(state));
            let (x, o) = (inputs.number(&one.input), outputs.number(&one.output));
            if one.fault {
                faults.insert([s, x, o, t]);
            } else if *rules.entry([s, x]).or_insert([o, t]) != [o, t] {
                let what = format!("state {} has two transitions for {}", one.from, one.input);
                wrong.push(Mistake::new(one.line, what));
            }
        }
        faults.retain(|&[s, x, o, t]| rules.get(&[s, x]) != Some(&[o, t]));
        match wrong.is_empty() {
            true => Ok((rules, faults)),
            false => Err(wrong),
        }
    }
}
