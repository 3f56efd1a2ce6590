//! A small reader of sheets, written from documents 01 and 02 alone.

use std::collections::{BTreeMap, BTreeSet};
use std::ops::Range;

pub const SIZE: u8 = 0x01;
pub const RULE: u8 = 0x02;
pub const FAULT: u8 = 0x03;
pub const TEST: u8 = 0x04;
pub const PRESS: u8 = 0x05;
pub const END: u8 = 0x06;
pub const START: u8 = 0x07;
pub const QUIET: u8 = 0x08;

pub const MOST_BYTES: usize = 16_384;
pub const MOST_FAULTS: usize = 256;
pub const MOST_TESTS: usize = 256;
pub const MOST_PRESSES: usize = 256;
pub const MOST_OPEN_PAIRS: usize = 32;

/// A state and a press.
pub type Pair = (u8, u8);

/// A sound and a next state. Moves ascend by sound, then by state.
pub type Move = (u8, u8);

/// Why an operation turned its arguments away.
#[derive(Clone, Copy, Debug, PartialEq, Eq)]
pub struct Refusal {
    pub number: usize,
    pub place: usize,
}

/// What a sheet says: a specified machine, whether it ignores unspecified presses, its possible
/// faults, the states other than 0 in which a board may wake, a test suite.
#[derive(Clone, Debug, Default, PartialEq, Eq)]
pub struct Sheet {
    pub states: u8,
    pub presses: u8,
    pub sounds: u8,
    pub quiet: bool,
    pub rules: BTreeMap<Pair, Move>,
    pub faults: BTreeSet<(Pair, Move)>,
    pub starts: BTreeSet<u8>,
    pub tests: Vec<Vec<u8>>,
}

/// The figures that reading gives of an accepted sheet.
#[derive(Clone, Copy, Debug, PartialEq, Eq)]
pub struct Summary {
    pub states: usize,
    pub presses: usize,
    pub sounds: usize,
    pub rules: usize,
    pub faults: usize,
    pub tests: usize,
    pub open_pairs: usize,
}

/// An accepted sheet, and where the PRESS commands of each test stand in its bytes.
#[derive(Clone, Debug, PartialEq, Eq)]
pub struct Reading {
    pub sheet: Sheet,
    pub parts: Vec<Range<usize>>,
}

/// Reads a sheet: refusals 1 to 12.
pub fn read(bytes: &[u8]) -> Result<Reading, Refusal> {
    if bytes.len() > MOST_BYTES {
        return Err(Refusal {
            number: 1,
            place: MOST_BYTES,
        });
    }
    let mut reader = Reader::new();
    let mut place = 0;
    loop {
        let refused = |number| Refusal { number, place };
        let command = *bytes.get(place).ok_or(refused(2))?;
        if !reader.allows(command) {
            return Err(refused(3));
        }
        let next = place + 1 + operands_of(command);
        let operands = bytes.get(place + 1..next).ok_or(refused(2))?;
        if command == END {
            if next < bytes.len() {
                return Err(Refusal {
                    number: 10,
                    place: next,
                });
            }
            return reader.end().map_err(refused);
        }
        reader.take(command, operands, next).map_err(refused)?;
        place = next;
    }
}

/// One test's part: where its PRESS commands stand, or the refusal of reading or 17.
pub fn test_part(bytes: &[u8], test: usize) -> Result<Range<usize>, Refusal> {
    read(bytes)?.part(test)
}

impl Reading {
    pub fn part(&self, test: usize) -> Result<Range<usize>, Refusal> {
        let unknown = Refusal {
            number: 17,
            place: 0,
        };
        self.parts.get(test).cloned().ok_or(unknown)
    }
}

impl Sheet {
    pub fn summary(&self) -> Summary {
        Summary {
            states: self.states.into(),
            presses: self.presses.into(),
            sounds: self.sounds.into(),
            rules: self.rules.len(),
            faults: self.faults.len(),
            tests: self.tests.len(),
            open_pairs: self.open_pairs(),
        }
    }

    /// All pairs of a state and a press, in ascending order.
    pub fn pairs(&self) -> impl Iterator<Item = Pair> + '_ {
        (0..self.states).flat_map(|s| (0..self.presses).map(move |x| (s, x)))
    }

    /// The faults at a pair, in ascending order.
    pub fn faults_at(&self, pair: Pair) -> impl Iterator<Item = Move> + '_ {
        let all = (pair, (0, 0))..=(pair, (u8::MAX, u8::MAX));
        self.faults.range(all).map(|&(_, to)| to)
    }

    /// The open pairs; the choice of a waking state counts as one.
    fn open_pairs(&self) -> usize {
        let waking = usize::from(!self.starts.is_empty());
        waking + self.pairs().filter(|&pair| self.is_open(pair)).count()
    }

    fn is_open(&self, pair: Pair) -> bool {
        if self.rules.contains_key(&pair) {
            self.faults_at(pair).next().is_some()
        } else {
            !self.quiet && usize::from(self.sounds) * usize::from(self.states) >= 2
        }
    }

    fn reaches_every_state(&self) -> bool {
        let mut reached = BTreeSet::from([0]);
        loop {
            let before = reached.len();
            for (&(s, _), &(_, t)) in &self.rules {
                if reached.contains(&s) {
                    reached.insert(t);
                }
            }
            if reached.len() == before {
                return before == usize::from(self.states);
            }
        }
    }

    /// The bytes that spell this sheet.
    pub fn encode(&self) -> Vec<u8> {
        let mut bytes = vec![SIZE, self.states, self.presses, self.sounds];
        bytes.extend(self.quiet.then_some(QUIET));
        for (&(s, x), &(o, t)) in &self.rules {
            bytes.extend([RULE, s, x, o, t]);
        }
        for &((s, x), (o, t)) in &self.faults {
            bytes.extend([FAULT, s, x, o, t]);
        }
        bytes.extend(self.starts.iter().flat_map(|&t| [START, t]));
        for test in &self.tests {
            bytes.push(TEST);
            bytes.extend(test.iter().flat_map(|&x| [PRESS, x]));
        }
        bytes.push(END);
        bytes
    }
}

fn operands_of(command: u8) -> usize {
    match command {
        SIZE => 3,
        RULE | FAULT => 4,
        START | PRESS => 1,
        _ => 0,
    }
}

/// The kinds of commands in the order in which they stand in a sheet.
#[derive(Clone, Copy, PartialEq, PartialOrd)]
enum Phase {
    Size,
    Quiet,
    Rules,
    Faults,
    Starts,
    Tests,
}

/// What has been read so far.
struct Reader {
    phase: Phase,
    sheet: Sheet,
    parts: Vec<Range<usize>>,
    /// The state that the current test has reached.
    state: u8,
}

impl Reader {
    fn new() -> Self {
        Reader {
            phase: Phase::Size,
            sheet: Sheet::default(),
            parts: Vec::new(),
            state: 0,
        }
    }

    fn allows(&self, command: u8) -> bool {
        match command {
            SIZE => self.phase == Phase::Size,
            QUIET => self.phase == Phase::Quiet,
            RULE => (Phase::Quiet..=Phase::Rules).contains(&self.phase),
            FAULT => (Phase::Quiet..=Phase::Faults).contains(&self.phase),
            START => (Phase::Quiet..=Phase::Starts).contains(&self.phase),
            TEST | END => self.phase >= Phase::Quiet,
            PRESS => self.phase == Phase::Tests,
            _ => false,
        }
    }

    /// Takes a command whose operands are there; `next` is the place after it.
    fn take(&mut self, command: u8, operands: &[u8], next: usize) -> Result<(), usize> {
        match *operands {
            [n, k, m] => self.size(n, k, m),
            [s, x, o, t] if command == RULE => self.rule((s, x), (o, t)),
            [s, x, o, t] => self.fault((s, x), (o, t)),
            [t] if command == START => self.start(t),
            [x] => self.press(x, next),
            _ if command == QUIET => self.quiet(),
            _ => self.test(next),
        }
    }

    fn size(&mut self, n: u8, k: u8, m: u8) -> Result<(), usize> {
        let fits = |v| (1..=16).contains(&v);
        check(fits(n) && fits(k) && fits(m), 4)?;
        self.sheet.states = n;
        self.sheet.presses = k;
        self.sheet.sounds = m;
        self.phase = Phase::Quiet;
        Ok(())
    }

    fn quiet(&mut self) -> Result<(), usize> {
        self.sheet.quiet = true;
        self.phase = Phase::Rules;
        Ok(())
    }

    fn in_range(&self, (s, x): Pair, (o, t): Move) -> bool {
        let sheet = &self.sheet;
        s < sheet.states && x < sheet.presses && o < sheet.sounds && t < sheet.states
    }

    fn rule(&mut self, pair: Pair, to: Move) -> Result<(), usize> {
        check(self.in_range(pair, to), 5)?;
        let last = self.sheet.rules.keys().next_back();
        check(last.is_none_or(|&last| last < pair), 6)?;
        self.sheet.rules.insert(pair, to);
        self.phase = Phase::Rules;
        Ok(())
    }

    fn fault(&mut self, pair: Pair, to: Move) -> Result<(), usize> {
        check(self.in_range(pair, to), 5)?;
        let last = self.sheet.faults.last();
        check(last.is_none_or(|&last| last < (pair, to)), 6)?;
        let rule = self.sheet.rules.get(&pair);
        check(rule.is_some_and(|&rule| rule != to), 7)?;
        check(self.sheet.faults.len() < MOST_FAULTS, 8)?;
        self.sheet.faults.insert((pair, to));
        self.phase = Phase::Faults;
        Ok(())
    }

    fn start(&mut self, t: u8) -> Result<(), usize> {
        check(t < self.sheet.states, 5)?;
        check(self.sheet.starts.last().is_none_or(|&last| last < t), 6)?;
        check(t != 0, 7)?;
        self.sheet.starts.insert(t);
        self.phase = Phase::Starts;
        Ok(())
    }

    fn test(&mut self, next: usize) -> Result<(), usize> {
        check(self.sheet.tests.len() < MOST_TESTS, 8)?;
        self.sheet.tests.push(Vec::new());
        self.parts.push(next..next);
        self.state = 0;
        self.phase = Phase::Tests;
        Ok(())
    }

    fn press(&mut self, x: u8, next: usize) -> Result<(), usize> {
        check(x < self.sheet.presses, 5)?;
        let test = self.sheet.tests.last_mut().expect("a TEST came before");
        check(test.len() < MOST_PRESSES, 8)?;
        let &(_, t) = self.sheet.rules.get(&(self.state, x)).ok_or(9usize)?;
        test.push(x);
        self.parts.last_mut().expect("a TEST came before").end = next;
        self.state = t;
        Ok(())
    }

    fn end(self) -> Result<Reading, usize> {
        check(self.sheet.reaches_every_state(), 11)?;
        check(self.sheet.open_pairs() <= MOST_OPEN_PAIRS, 12)?;
        Ok(Reading {
            sheet: self.sheet,
            parts: self.parts,
        })
    }
}

/// The refusal `number` unless the rule is kept.
fn check(kept: bool, number: usize) -> Result<(), usize> {
    if kept {
        Ok(())
    } else {
        Err(number)
    }
}
