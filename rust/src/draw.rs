//! Pictures of a machine, or of a board with its departing sequence: Graphviz's DOT, SVG, a table, a Mealy machine in
//! DOT.

mod dot;
mod mealy;
mod svg;
mod table;

use crate::machine::{Board, Choice, Machine, Move, Origin, Pair};
use crate::names::Names;
use crate::{Comparison, Refusal, compare};
use std::collections::BTreeMap;

pub use dot::dot;
pub use mealy::mealy;
pub use svg::svg;
pub use table::table;

/// What an arrow stands for.
#[derive(Clone, Copy, Debug, PartialEq, Eq, PartialOrd, Ord)]
pub enum Line {
    /// A RULE; drawn solid.
    Rule,
    /// A FAULT, or a START; drawn dashed.
    Fault,
    /// What a board does where there is no RULE; drawn dotted.
    Unspecified,
    /// What is specified where a board does something else; drawn in grey.
    Specified,
}

/// Where an arrow leads.
#[derive(Clone, Copy, Debug, PartialEq, Eq, PartialOrd, Ord)]
pub enum Target {
    /// To this state.
    State(u8),
    /// To any state at all.
    Any,
}

/// An arrow: where from (none for a fresh start) and where to, what it stands for, and whether the departing sequence
/// goes along it.
#[derive(Clone, Copy, Debug, PartialEq, Eq, PartialOrd, Ord)]
pub struct Arrow {
    /// The state that it leaves.
    pub from: Option<u8>,
    /// Where it leads.
    pub to: Target,
    /// What it stands for.
    pub line: Line,
    /// Whether the departing sequence goes along it.
    pub marked: bool,
}

/// What a press does at a state, and at which positions the departing sequence comes by.
#[derive(Clone, Debug, PartialEq, Eq)]
pub struct Transition {
    /// The state.
    pub state: u8,
    /// The press.
    pub press: u8,
    /// None for any sound and any next state.
    pub to: Option<Move>,
    /// What it stands for.
    pub line: Line,
    /// The positions of the departing sequence.
    pub positions: Vec<usize>,
}

/// A state after a fresh start, and whether the departing sequence begins there.
#[derive(Clone, Copy, Debug, PartialEq, Eq)]
pub struct Waking {
    /// The state.
    pub state: u8,
    /// What it stands for.
    pub line: Line,
    /// Whether the departing sequence begins there.
    pub marked: bool,
}

/// What a picture shows.
#[derive(Clone, Debug, Default, PartialEq, Eq)]
pub struct Picture {
    /// Of a board: what it is. Empty for a machine.
    pub title: String,
    /// What things are called.
    pub names: Names,
    /// How many states.
    pub states: u8,
    /// How many presses.
    pub presses: u8,
    /// How many sounds.
    pub sounds: u8,
    /// The states after a fresh start.
    pub wakings: Vec<Waking>,
    /// Ascending by state and press.
    pub transitions: Vec<Transition>,
}

impl Transition {
    fn arrow(&self) -> Arrow {
        Arrow {
            from: Some(self.state),
            to: self.to.map_or(Target::Any, |to| Target::State(to.next)),
            line: self.line,
            marked: !self.positions.is_empty(),
        }
    }

    /// `press/sound`, with the positions of the departing sequence.
    fn label(&self, names: &Names) -> String {
        let sound = self.to.map_or("?".to_string(), |to| names.sound(to.sound));
        names.press(self.press) + "/" + &sound + &at(&self.positions)
    }
}

/// ` at 0, 3`, or nothing.
fn at(positions: &[usize]) -> String {
    let positions: Vec<String> = positions.iter().map(usize::to_string).collect();
    match positions.as_slice() {
        [] => String::new(),
        all => format!(" at {}", all.join(", ")),
    }
}

impl Picture {
    fn new(machine: &Machine, names: &Names) -> Self {
        Picture {
            names: names.clone(),
            states: machine.states,
            presses: machine.presses,
            sounds: machine.sounds,
            ..Picture::default()
        }
    }

    fn add_waking(&mut self, state: u8, line: Line, marked: bool) {
        self.wakings.push(Waking {
            state,
            line,
            marked,
        });
    }

    fn add(&mut self, pair: Pair, to: Option<Move>, line: Line, positions: Vec<usize>) {
        self.transitions.push(Transition {
            state: pair.0,
            press: pair.1,
            to,
            line,
            positions,
        });
    }

    /// The arrows between its states, each with its labels: one for each press, none for a fresh start.
    #[must_use]
    pub fn arrows(&self) -> BTreeMap<Arrow, Vec<String>> {
        let mut arrows: BTreeMap<Arrow, Vec<String>> = BTreeMap::new();
        for waking in &self.wakings {
            let arrow = Arrow {
                from: None,
                to: Target::State(waking.state),
                line: waking.line,
                marked: waking.marked,
            };
            arrows.entry(arrow).or_default();
        }
        for transition in &self.transitions {
            let labels = arrows.entry(transition.arrow()).or_default();
            labels.push(transition.label(&self.names));
        }
        let has = |state: u8| state < self.states;
        arrows.retain(|arrow, _| {
            let leads = match arrow.to {
                Target::State(state) => has(state),
                Target::Any => true,
            };
            leads && arrow.from.is_none_or(has)
        });
        arrows
    }

    /// `A machine with 3 states, 2 presses and 2 sounds`, or what the board is.
    fn heading(&self) -> String {
        let many = |number: u8, one: &str, more: &str| match number {
            1 => format!("1 {one}"),
            _ => format!("{number} {more}"),
        };
        let states = many(self.states, "state", "states");
        let presses = many(self.presses, "press", "presses");
        let sounds = many(self.sounds, "sound", "sounds");
        match self.title.as_str() {
            "" => format!("A machine with {states}, {presses} and {sounds}"),
            title => title.to_string(),
        }
    }
}

impl Line {
    fn of(origin: Origin) -> Self {
        match origin {
            Origin::Rule => Line::Rule,
            Origin::Fault | Origin::Waking => Line::Fault,
            Origin::Unspecified => Line::Unspecified,
        }
    }
}

/// The machine of a sheet with its FAULTs; on demand also the presses without a RULE.
///
/// ```
/// use ranthelo::{Names, draw, machine::Machine};
///
/// let sheet = ranthelo::text::assemble(b"SIZE 1 1 2\n RULE 0 0 0 0\n FAULT 0 0 1 0")?;
/// let picture = draw::machine(&Machine::of(&sheet)?, &Names::default(), false);
/// assert_eq!(
///     draw::dot(&picture),
///     r#"digraph {
///   rankdir=LR
///   node [shape=circle]
///   start [shape=point]
///   start -> 0
///   0 -> 0 [label="0/0"]
///   0 -> 0 [label="0/1" style=dashed]
/// }
/// "#,
/// );
/// # Ok::<(), Box<dyn std::error::Error>>(())
/// ```
#[must_use]
pub fn machine(machine: &Machine, names: &Names, unspecified: bool) -> Picture {
    let mut picture = Picture::new(machine, names);
    picture.add_waking(0, Line::Rule, false);
    for &state in &machine.starts {
        picture.add_waking(state, Line::Fault, false);
    }
    for pair in machine.pairs() {
        for (to, line) in transitions(machine, pair) {
            if line != Line::Unspecified || unspecified {
                picture.add(pair, to, line, Vec::new());
            }
        }
    }
    picture
}

/// What the choices at a pair do; an unspecified pair leads to any state.
fn transitions(machine: &Machine, pair: Pair) -> Vec<(Option<Move>, Line)> {
    let choices = machine.choices(pair);
    let any = |choice: &Choice| choice.origin == Origin::Unspecified;
    if choices.len() > 1 && choices.iter().all(any) {
        return vec![(None, Line::Unspecified)];
    }
    let transition = |Choice { origin, to }| (Some(to), Line::of(origin));
    choices.into_iter().map(transition).collect()
}

/// A board of a sheet; its departing sequence is marked, each press with its positions. What is specified stands beside
/// each fault. On demand also the presses without a RULE that the sequence does not meet.
pub fn board(
    sheet: &[u8],
    choices: &[u8],
    names: &Names,
    unspecified: bool,
) -> Result<Picture, Refusal> {
    let sequence = match compare(sheet, choices)? {
        Comparison::Conforms => None,
        Comparison::Departs { sequence } => Some(sequence),
    };
    let machine = Machine::of(sheet)?;
    let board = machine.with(choices).expect("the library took the board");
    let mut picture = Picture::new(&machine, names);
    picture.title = title(choices, sequence.as_deref(), names);
    add_wakings(&mut picture, &board, sequence.is_some());
    let mut met = positions(&board, sequence.as_deref().unwrap_or(&[]));
    for pair in machine.pairs() {
        let to = board.step(pair.0, pair.1).to;
        let positions = met.remove(&pair).unwrap_or_default();
        match machine.rules.get(&pair) {
            Some(&rule) if rule == to => picture.add(pair, Some(to), Line::Rule, positions),
            Some(&rule) => {
                picture.add(pair, Some(to), Line::Fault, positions);
                picture.add(pair, Some(rule), Line::Specified, Vec::new());
            }
            None if unspecified || !positions.is_empty() => {
                picture.add(pair, Some(to), Line::Unspecified, positions);
            }
            None => {}
        }
    }
    Ok(picture)
}

/// The state in which a board wakes, and state 0 beside it if it is another.
fn add_wakings(picture: &mut Picture, board: &Board, marked: bool) {
    match board.wake().to.next {
        0 => picture.add_waking(0, Line::Rule, marked),
        state => {
            picture.add_waking(state, Line::Fault, marked);
            picture.add_waking(0, Line::Specified, false);
        }
    }
}

fn title(choices: &[u8], sequence: Option<&[u8]>, names: &Names) -> String {
    let choices: String = choices.iter().map(|choice| format!(" {choice}")).collect();
    let presses = |presses: &[u8]| -> String {
        let presses = presses.iter().map(|&press| names.press(press));
        presses.map(|press| format!(" {press}")).collect()
    };
    match sequence {
        None => format!("board{choices} conforms"),
        Some(sequence) => format!("board{choices} departs on{}", presses(sequence)),
    }
}

/// The positions at which a board meets each pair.
fn positions(board: &Board, presses: &[u8]) -> BTreeMap<Pair, Vec<usize>> {
    let mut met: BTreeMap<Pair, Vec<usize>> = BTreeMap::new();
    let mut state = board.wake().to.next;
    for (i, &press) in presses.iter().enumerate() {
        met.entry((state, press)).or_default().push(i);
        state = board.step(state, press).to.next;
    }
    met
}
