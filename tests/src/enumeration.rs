//! A small judge by enumeration, written from documents 01 and 02 alone: it builds every
//! mutant (01: board) and tries it. Fit for sheets with few mutants.

use crate::reference::{read, Move, Refusal, Sheet, MOST_BYTES, MOST_PRESSES, MOST_TESTS};
use std::collections::{BTreeSet, VecDeque};

/// The specified machine of a sheet with the choices at each pair and the test
/// suite. Pairs are numbered in ascending order of state, then input.
pub struct Machine {
    states: usize,
    inputs: usize,
    rules: Vec<Option<Move>>,
    /// The states in which a mutant may wake: 0, then the listed ones.
    wakings: Vec<u8>,
    choices: Vec<Vec<Move>>,
    /// The pairs with two or more choices (01: open pairs).
    suspects: Vec<usize>,
    /// Each test with its specified outputs.
    suite: Vec<(Vec<u8>, Vec<u8>)>,
}

/// A machine with one choice taken at each pair, and of a waking state.
pub struct Mutant<'a> {
    machine: &'a Machine,
    start: usize,
    moves: Vec<Move>,
}

/// Where a mutant first goes wrong: a test and a position in it.
#[derive(Clone, Copy, Debug, PartialEq, Eq)]
pub struct Failure {
    pub test: usize,
    pub position: usize,
}

/// The suspects that were met (02: open pairs used): how many, and a bit for each.
#[derive(Clone, Copy, Debug, PartialEq, Eq)]
pub struct Used {
    pub number: usize,
    pub set: usize,
}

/// What a run gives.
#[derive(Clone, Debug, PartialEq, Eq)]
pub struct Ran {
    pub sounds: Vec<u8>,
    pub used: Used,
}

/// The first failed test, if there is one, and the suspects met until then.
#[derive(Clone, Copy, Debug, PartialEq, Eq)]
pub struct Failed {
    pub failure: Option<Failure>,
    pub used: Used,
}

/// A nonconforming mutant that passes the suite, and its shortest distinguishing sequence.
#[derive(Clone, Debug, PartialEq, Eq)]
pub struct Survivor {
    pub board: Vec<u8>,
    pub sequence: Vec<u8>,
}

/// A mutant that passes the suite, and its shortest distinguishing sequence if it is nonconforming.
#[derive(Clone, Debug, PartialEq, Eq)]
pub struct Passing {
    pub board: Vec<u8>,
    pub sequence: Option<Vec<u8>>,
}

/// A sheet whose suite was made complete, and how many tests were appended.
#[derive(Clone, Debug, PartialEq, Eq)]
pub struct Made {
    pub sheet: Vec<u8>,
    pub appended: usize,
}

/// The choices at a pair: the rule, then its faults; without a rule every move, or sound 0 and the
/// same state if the sheet is quiet.
fn choices(sheet: &Sheet, pair: (u8, u8)) -> Vec<Move> {
    match sheet.rules.get(&pair) {
        Some(&rule) => [rule].into_iter().chain(sheet.faults_at(pair)).collect(),
        None if sheet.quiet => vec![(0, pair.0)],
        None => (0..sheet.sounds)
            .flat_map(|o| (0..sheet.states).map(move |t| (o, t)))
            .collect(),
    }
}

impl Machine {
    pub fn new(sheet: &Sheet) -> Self {
        let choices: Vec<_> = sheet.pairs().map(|pair| choices(sheet, pair)).collect();
        let suspects = (0..choices.len()).filter(|&p| choices[p].len() >= 2);
        let mut machine = Machine {
            states: sheet.states.into(),
            inputs: sheet.presses.into(),
            rules: sheet
                .pairs()
                .map(|p| sheet.rules.get(&p).copied())
                .collect(),
            wakings: [0].into_iter().chain(sheet.starts.clone()).collect(),
            suspects: suspects.collect(),
            choices,
            suite: Vec::new(),
        };
        machine.suite = sheet
            .tests
            .iter()
            .map(|test| (test.clone(), machine.specified(test)))
            .collect();
        machine
    }

    fn pair(&self, state: usize, input: u8) -> usize {
        state * self.inputs + usize::from(input)
    }

    /// The specified outputs on a defined sequence.
    fn specified(&self, inputs: &[u8]) -> Vec<u8> {
        let mut state = 0;
        let step = |&x: &u8| {
            let (output, next) = self.rules[self.pair(state, x)].expect("the sequence is defined");
            state = next.into();
            output
        };
        inputs.iter().map(step).collect()
    }

    /// Whether a board's first byte says where it wakes.
    fn wakes(&self) -> bool {
        self.wakings.len() > 1
    }

    /// The number of choices of each byte of a board: of a waking state, if there is a
    /// choice, and of each suspect.
    pub fn counts(&self) -> Vec<usize> {
        let waking = self.wakes().then_some(self.wakings.len());
        let suspects = self.suspects.iter().map(|&p| self.choices[p].len());
        waking.into_iter().chain(suspects).collect()
    }

    /// All boards of the sheet, in dictionary order.
    pub fn boards(&self) -> Boards {
        Boards {
            counts: self.counts(),
            next: Some(vec![0; self.counts().len()]),
        }
    }

    pub fn mutant(&self, board: &[u8]) -> Mutant<'_> {
        let mut moves: Vec<_> = self.choices.iter().map(|list| list[0]).collect();
        let (waking, board) = board.split_at(usize::from(self.wakes()));
        for (&pair, &choice) in self.suspects.iter().zip(board) {
            moves[pair] = self.choices[pair][usize::from(choice)];
        }
        let waking = waking.first().map_or(0, |&choice| choice.into());
        Mutant {
            machine: self,
            start: self.wakings[waking].into(),
            moves,
        }
    }

    /// The mutants that pass the suite, in dictionary order.
    pub fn passing(&self) -> impl Iterator<Item = Vec<u8>> + '_ {
        let passes = |board: &Vec<u8>| self.mutant(board).first_failed().is_none();
        self.boards().filter(passes)
    }

    /// Whether every mutant that begins with these choices fails a test before it needs another choice.
    pub fn fails(&self, begun: &[u8]) -> bool {
        let waking = usize::from(self.wakes());
        if begun.len() < waking {
            return false;
        }
        let start = if self.wakes() { begun[0].into() } else { 0 };
        let choice = |pair: usize| match self.suspects.binary_search(&pair) {
            Ok(suspect) => begun.get(waking + suspect).map(|&choice| choice.into()),
            Err(_) => Some(0),
        };
        let fails = |(inputs, wanted): &(Vec<u8>, Vec<u8>)| {
            let mut state = usize::from(self.wakings[start]);
            for (&x, &wanted) in inputs.iter().zip(wanted) {
                let pair = self.pair(state, x);
                let Some(choice) = choice(pair) else {
                    return false;
                };
                let (output, next) = self.choices[pair][choice];
                if output != wanted {
                    return true;
                }
                state = next.into();
            }
            false
        };
        self.suite.iter().any(fails)
    }

    /// The first surviving mutant in dictionary order, if there is one.
    pub fn judge(&self) -> Option<Survivor> {
        self.boards().find_map(|board| {
            let mutant = self.mutant(&board);
            if mutant.first_failed().is_some() {
                return None;
            }
            let sequence = mutant.distinguish()?;
            Some(Survivor { board, sequence })
        })
    }
}

impl Mutant<'_> {
    /// The pairs met after one reset, on any inputs.
    fn pairs<'b>(&'b self, inputs: &'b [u8]) -> impl Iterator<Item = usize> + 'b {
        let mut state = self.start;
        inputs.iter().map(move |&x| {
            let pair = self.machine.pair(state, x);
            state = self.moves[pair].1.into();
            pair
        })
    }

    /// The outputs after one reset, on any inputs.
    pub fn outputs<'b>(&'b self, inputs: &'b [u8]) -> impl Iterator<Item = u8> + 'b {
        self.pairs(inputs).map(|pair| self.moves[pair].0)
    }

    /// The bytes of the board that are used on sequences, each after a reset: that of the waking
    /// state always, those of the suspects that are met.
    fn used<'b>(&self, sequences: impl Iterator<Item = &'b [u8]>) -> Used {
        let met: BTreeSet<usize> = sequences.flat_map(|inputs| self.pairs(inputs)).collect();
        let waking = self.machine.wakes().then_some(true);
        let suspects = self.machine.suspects.iter().map(|pair| met.contains(pair));
        let bytes = waking.into_iter().chain(suspects).enumerate();
        let bits = bytes.filter(|&(_, used)| used).map(|(i, _)| i);
        Used {
            number: bits.clone().count(),
            set: bits.map(|i| 1 << i).sum(),
        }
    }

    /// The first failed test and the position of its first wrong output.
    pub fn first_failed(&self) -> Option<Failure> {
        let wrong = |(inputs, wanted): &(Vec<u8>, Vec<u8>)| {
            self.outputs(inputs)
                .zip(wanted)
                .position(|(given, &wanted)| given != wanted)
        };
        let mut suite = self.machine.suite.iter().enumerate();
        suite.find_map(|(test, case)| wrong(case).map(|position| Failure { test, position }))
    }

    /// The suspects met by all tests up to and including the wrong output, or by all tests.
    fn used_until(&self, failure: Option<Failure>) -> Used {
        let suite = self.machine.suite.iter().enumerate();
        let tried = suite.filter_map(|(test, (inputs, _))| match failure {
            Some(wrong) if test > wrong.test => None,
            Some(wrong) if test == wrong.test => Some(&inputs[..=wrong.position]),
            _ => Some(&inputs[..]),
        });
        self.used(tried)
    }

    /// The shortest, then smallest, defined sequence on which an output is wrong:
    /// breadth first over the pairs of states that are met in step.
    pub fn distinguish(&self) -> Option<Vec<u8>> {
        let machine = self.machine;
        let mut seen = vec![false; machine.states * machine.states];
        seen[self.start] = true;
        let mut queue = VecDeque::from([(0, self.start, Vec::new())]);
        while let Some((specified, given, sequence)) = queue.pop_front() {
            for x in 0..machine.inputs as u8 {
                let Some((wanted, next)) = machine.rules[machine.pair(specified, x)] else {
                    continue;
                };
                let (output, other) = self.moves[machine.pair(given, x)];
                let (next, other) = (usize::from(next), usize::from(other));
                let longer = || [&sequence[..], &[x]].concat();
                if output != wanted {
                    return Some(longer());
                }
                if !seen[next * machine.states + other] {
                    seen[next * machine.states + other] = true;
                    queue.push_back((next, other, longer()));
                }
            }
        }
        None
    }
}

/// Boards in dictionary order of their bytes.
pub struct Boards {
    counts: Vec<usize>,
    next: Option<Vec<u8>>,
}

impl Iterator for Boards {
    type Item = Vec<u8>;

    fn next(&mut self) -> Option<Vec<u8>> {
        let board = self.next.take()?;
        let grows = |&i: &usize| usize::from(board[i]) + 1 < self.counts[i];
        self.next = (0..board.len()).rev().find(grows).map(|i| {
            let mut later = board.clone();
            later[i] += 1;
            later[i + 1..].fill(0);
            later
        });
        Some(board)
    }
}

fn refuse<T>(number: usize, place: usize) -> Result<T, Refusal> {
    Err(Refusal { number, place })
}

/// Refusals 13 and 14.
fn check_board(machine: &Machine, board: &[u8]) -> Result<(), Refusal> {
    let counts = machine.counts();
    if board.len() != counts.len() {
        return refuse(13, 0);
    }
    match (0..board.len()).find(|&i| usize::from(board[i]) >= counts[i]) {
        Some(index) => refuse(14, index),
        None => Ok(()),
    }
}

/// Run, with a buffer of `room` bytes: the outputs, one for each press, and the suspects met.
pub fn run(bytes: &[u8], board: &[u8], presses: &[u8], room: usize) -> Result<Ran, Refusal> {
    let machine = Machine::new(&read(bytes)?.sheet);
    check_board(&machine, board)?;
    if let Some(index) = presses
        .iter()
        .position(|&x| usize::from(x) >= machine.inputs)
    {
        return refuse(15, index);
    }
    if room < presses.len() {
        return refuse(16, 0);
    }
    let mutant = machine.mutant(board);
    Ok(Ran {
        sounds: mutant.outputs(presses).collect(),
        used: mutant.used([presses].into_iter()),
    })
}

/// First failed test.
pub fn first_failed(bytes: &[u8], board: &[u8]) -> Result<Failed, Refusal> {
    let machine = Machine::new(&read(bytes)?.sheet);
    check_board(&machine, board)?;
    let mutant = machine.mutant(board);
    let failure = mutant.first_failed();
    let used = mutant.used_until(failure);
    Ok(Failed { failure, used })
}

/// A tray of boards with room for so many results: the first failed test of each, 65,535 for none.
pub fn tray(bytes: &[u8], boards: usize, choices: &[u8], room: usize) -> Result<Vec<u16>, Refusal> {
    let machine = Machine::new(&read(bytes)?.sheet);
    let counts = machine.counts();
    if choices.len() as u128 != boards as u128 * counts.len() as u128 {
        return refuse(13, 0);
    }
    let high = |&i: &usize| usize::from(choices[i]) >= counts[i % counts.len()];
    if let Some(index) = (0..choices.len()).find(high) {
        return refuse(14, index);
    }
    if room < boards {
        return refuse(16, 0);
    }
    let result = |i: usize| {
        let board = &choices[i * counts.len()..][..counts.len()];
        let failure = machine.mutant(board).first_failed();
        failure.map_or(65_535, |failure| failure.test as u16)
    };
    Ok((0..boards).map(result).collect())
}

/// Compare, with a buffer of `room` bytes: the shortest distinguishing sequence, or none.
pub fn compare(bytes: &[u8], board: &[u8], room: usize) -> Result<Option<Vec<u8>>, Refusal> {
    let machine = Machine::new(&read(bytes)?.sheet);
    check_board(&machine, board)?;
    if room < machine.states * machine.states {
        return refuse(16, 0);
    }
    Ok(machine.mutant(board).distinguish())
}

/// Judge, with buffers of so many bytes: the first survivor, or none if the suite is complete.
pub fn judge(
    bytes: &[u8],
    board_room: usize,
    sequence_room: usize,
) -> Result<Option<Survivor>, Refusal> {
    let machine = Machine::new(&read(bytes)?.sheet);
    if board_room < machine.counts().len() {
        return refuse(16, 0);
    }
    if sequence_room < machine.states * machine.states {
        return refuse(16, 1);
    }
    Ok(machine.judge())
}

/// Make, with a buffer of `room` bytes: the sheet with the sequences of its survivors as further tests.
pub fn make(bytes: &[u8], room: usize) -> Result<Made, Refusal> {
    let mut sheet = read(bytes)?.sheet;
    if room < MOST_BYTES {
        return refuse(16, 0);
    }
    let tests = sheet.tests.len();
    while let Some(survivor) = Machine::new(&sheet).judge() {
        sheet.tests.push(survivor.sequence);
        if sheet.tests.len() > MOST_TESTS || sheet.encode().len() > MOST_BYTES {
            return refuse(18, 0);
        }
    }
    Ok(Made {
        sheet: sheet.encode(),
        appended: sheet.tests.len() - tests,
    })
}

/// Take, with buffers of so many bytes, from a place as C has it: 0 the start, 1 the board `last`, else the end.
pub fn take(
    bytes: &[u8],
    place: u8,
    last: &[u8],
    board_room: usize,
    sequence_room: usize,
) -> Result<Option<Passing>, Refusal> {
    let machine = Machine::new(&read(bytes)?.sheet);
    if place == 1 {
        check_board(&machine, last)?;
    }
    if board_room < machine.counts().len() {
        return refuse(16, 0);
    }
    if sequence_room < machine.states * machine.states {
        return refuse(16, 1);
    }
    let mut passing = machine.passing();
    let next = match place {
        0 => passing.next(),
        1 => passing.find(|board| board.as_slice() > last),
        _ => None,
    };
    Ok(next.map(|board| Passing {
        sequence: machine.mutant(&board).distinguish(),
        board,
    }))
}

/// Add a test, with a buffer of `room` bytes: the sheet with that test last.
pub fn add_test(bytes: &[u8], presses: &[u8], room: usize) -> Result<Vec<u8>, Refusal> {
    let mut sheet = read(bytes)?.sheet;
    if sheet.tests.len() == MOST_TESTS {
        return refuse(8, 0);
    }
    let mut state = 0;
    for (index, &x) in presses.iter().enumerate() {
        if x >= sheet.presses {
            return refuse(5, index);
        }
        if index == MOST_PRESSES {
            return refuse(8, index);
        }
        match sheet.rules.get(&(state, x)) {
            Some(&(_, next)) => state = next,
            None => return refuse(9, index),
        }
    }
    sheet.tests.push(presses.to_vec());
    let longer = sheet.encode();
    if longer.len() > MOST_BYTES {
        return refuse(1, 0);
    }
    if longer.len() > room {
        return refuse(16, 0);
    }
    Ok(longer)
}
