//! An accepted sheet taken apart: its machine, the open pairs and their choices, a board's steps.
//!
//! Plain Rust, for showing. [`Machine::of`] asks the library first, so what is taken apart has been accepted.

use crate::commands::{Command, FAULT, PRESS, QUIET, RULE, SIZE, START, TEST, commands};
use crate::{Refusal, read};
use std::collections::BTreeMap;

/// A state and a press.
pub type Pair = (u8, u8);

/// A sound and a next state.
#[derive(Clone, Copy, Debug, PartialEq, Eq, PartialOrd, Ord)]
pub struct Move {
    /// The sound.
    pub sound: u8,
    /// The next state.
    pub next: u8,
}

/// What a choice comes from.
#[derive(Clone, Copy, Debug, PartialEq, Eq)]
pub enum Origin {
    /// The RULE.
    Rule,
    /// A FAULT.
    Fault,
    /// The pair has no RULE.
    Unspecified,
    /// A state to wake in: state 0, or one that a START names.
    Waking,
}

/// One of the choices that a board has at a place. Waking gives no sound.
#[derive(Clone, Copy, Debug, PartialEq, Eq)]
pub struct Choice {
    /// What it comes from.
    pub origin: Origin,
    /// What it does.
    pub to: Move,
}

/// Where a board has a choice byte.
#[derive(Clone, Copy, Debug, PartialEq, Eq)]
pub enum Site {
    /// At a fresh start, if the sheet has STARTs.
    Waking,
    /// At a state and a press.
    Pair(Pair),
}

/// A place with two or more choices.
#[derive(Clone, Debug, PartialEq, Eq)]
pub struct OpenPair {
    /// The place.
    pub site: Site,
    /// The choices, by their numbers.
    pub choices: Vec<Choice>,
}

/// A transition of a board, and the open pair that it takes it from, if it is one.
#[derive(Clone, Copy, Debug, PartialEq, Eq)]
pub struct Step {
    /// What it does.
    pub to: Move,
    /// The open pair, by its number.
    pub open_pair: Option<usize>,
}

/// What an accepted sheet says.
#[derive(Clone, Debug, Default, PartialEq, Eq)]
pub struct Machine {
    /// How many states.
    pub states: u8,
    /// How many presses.
    pub presses: u8,
    /// How many sounds.
    pub sounds: u8,
    /// A pair without a RULE gives sound 0 and stays.
    pub quiet: bool,
    /// The RULEs.
    pub rules: BTreeMap<Pair, Move>,
    /// The FAULTs at a pair, ascending.
    pub faults: BTreeMap<Pair, Vec<Move>>,
    /// The states that STARTs name, ascending.
    pub starts: Vec<u8>,
    /// The presses of each test.
    pub tests: Vec<Vec<u8>>,
}

impl Machine {
    /// Takes a sheet apart, if the library accepts it.
    ///
    /// ```
    /// let sheet = ranthelo::text::assemble(b"SIZE 2 1 1\n RULE 0 0 0 1")?;
    /// let machine = ranthelo::machine::Machine::of(&sheet)?;
    /// let choices = machine.choices((1, 0));
    /// assert_eq!(choices.len(), 2);
    /// # Ok::<(), Box<dyn std::error::Error>>(())
    /// ```
    pub fn of(sheet: &[u8]) -> Result<Self, Refusal> {
        read(sheet)?;
        Ok(Machine::before(sheet, sheet.len()))
    }

    /// What the commands before a place say, of a sheet that is read at least so far.
    pub(crate) fn before(sheet: &[u8], place: usize) -> Self {
        let mut machine = Machine::default();
        for command in commands(sheet).take_while(|command| command.place < place) {
            machine.take(command);
        }
        machine
    }

    fn take(&mut self, command: Command) {
        match (command.byte(), command.operands()) {
            (SIZE, &[n, k, m]) => (self.states, self.presses, self.sounds) = (n, k, m),
            (QUIET, _) => self.quiet = true,
            (RULE, &[s, x, sound, next]) => {
                self.rules.insert((s, x), Move { sound, next });
            }
            (FAULT, &[s, x, sound, next]) => {
                let faults = self.faults.entry((s, x)).or_default();
                faults.push(Move { sound, next });
            }
            (START, &[t]) => self.starts.push(t),
            (TEST, _) => self.tests.push(Vec::new()),
            (PRESS, &[x]) => {
                if let Some(test) = self.tests.last_mut() {
                    test.push(x);
                }
            }
            _ => {}
        }
    }

    /// All pairs, ascending.
    pub fn pairs(&self) -> impl Iterator<Item = Pair> + use<> {
        let presses = self.presses;
        (0..self.states).flat_map(move |s| (0..presses).map(move |x| (s, x)))
    }

    /// The state that the RULEs lead to from state 0, if there is one at each press.
    #[must_use]
    pub fn reached(&self, presses: &[u8]) -> Option<u8> {
        let step = |state, &press: &u8| self.rules.get(&(state, press)).map(|to| to.next);
        presses.iter().try_fold(0, step)
    }

    /// The choices at a pair, by their numbers.
    #[must_use]
    pub fn choices(&self, pair: Pair) -> Vec<Choice> {
        let choice = |origin| move |to| Choice { origin, to };
        match self.rules.get(&pair) {
            Some(&rule) => {
                let faults = self.faults.get(&pair).into_iter().flatten().copied();
                let faults = faults.map(choice(Origin::Fault));
                [choice(Origin::Rule)(rule)]
                    .into_iter()
                    .chain(faults)
                    .collect()
            }
            None if self.quiet => {
                let (sound, next) = (0, pair.0);
                vec![choice(Origin::Unspecified)(Move { sound, next })]
            }
            None => (0..self.sounds)
                .flat_map(|sound| (0..self.states).map(move |next| Move { sound, next }))
                .map(choice(Origin::Unspecified))
                .collect(),
        }
    }

    /// The states in which a board may wake, by the numbers of the choices.
    fn waking(&self) -> Vec<Choice> {
        let states = [0].into_iter().chain(self.starts.iter().copied());
        states
            .map(|next| Choice {
                origin: Origin::Waking,
                to: Move { sound: 0, next },
            })
            .collect()
    }

    /// The open pairs, in the order of a board's choices. If the sheet has STARTs, the first is the waking.
    #[must_use]
    pub fn open_pairs(&self) -> Vec<OpenPair> {
        let waking = [(Site::Waking, self.waking())].into_iter();
        let pairs = self
            .pairs()
            .map(|pair| (Site::Pair(pair), self.choices(pair)));
        waking
            .chain(pairs)
            .filter(|(_, choices)| choices.len() >= 2)
            .map(|(site, choices)| OpenPair { site, choices })
            .collect()
    }

    /// The machine with a board's choices; none if the board is not one of the machine's.
    ///
    /// ```
    /// let sheet = ranthelo::text::assemble(b"SIZE 2 1 1\n RULE 0 0 0 1")?;
    /// let machine = ranthelo::machine::Machine::of(&sheet)?;
    /// assert_eq!(machine.with(&[1]).map(|board| board.step(1, 0).to.next), Some(1));
    /// assert!(machine.with(&[2]).is_none() && machine.with(&[]).is_none());
    /// # Ok::<(), Box<dyn std::error::Error>>(())
    /// ```
    #[must_use]
    pub fn with<'a>(&'a self, board: &'a [u8]) -> Option<Board<'a>> {
        let open_pairs = self.open_pairs();
        let fits = |(pair, &choice): (&OpenPair, &u8)| usize::from(choice) < pair.choices.len();
        let whole = board.len() == open_pairs.len() && open_pairs.iter().zip(board).all(fits);
        whole.then_some(Board {
            machine: self,
            open_pairs,
            choices: board,
        })
    }
}

/// A board: a machine with one choice taken at each open pair.
#[derive(Clone, Debug)]
pub struct Board<'a> {
    machine: &'a Machine,
    open_pairs: Vec<OpenPair>,
    choices: &'a [u8],
}

impl Board<'_> {
    /// The open pairs, each with the number of the choice taken there.
    pub fn taken(&self) -> impl Iterator<Item = (&OpenPair, usize)> {
        let choices = self.choices.iter().map(|&choice| usize::from(choice));
        self.open_pairs.iter().zip(choices)
    }

    /// What is taken at a site: at an open pair the board's choice, elsewhere the only one. Where a machine that no
    /// sheet has gives none, the state stays.
    fn step_at(&self, site: Site, only: Option<Choice>, state: u8) -> Step {
        let open_pair = self.open_pairs.iter().position(|pair| pair.site == site);
        let choice = match open_pair {
            Some(i) => self
                .taken()
                .nth(i)
                .and_then(|(pair, number)| pair.choices.get(number).copied()),
            None => only,
        };
        let stays = Move {
            sound: 0,
            next: state,
        };
        let to = choice.map_or(stays, |choice| choice.to);
        Step { to, open_pair }
    }

    /// The state after a fresh start; its sound means nothing.
    #[must_use]
    pub fn wake(&self) -> Step {
        self.step_at(Site::Waking, self.machine.waking().first().copied(), 0)
    }

    /// What a press does at a state.
    #[must_use]
    pub fn step(&self, state: u8, press: u8) -> Step {
        let pair = (state, press);
        let only = self.machine.choices(pair).first().copied();
        self.step_at(Site::Pair(pair), only, state)
    }
}
