//! Seeded, reproducible sheets: well-formed ones, ones at the limits, damaged ones, noise.

use crate::reference::{
    Move, Pair, Sheet, END, FAULT, MOST_BYTES, PRESS, QUIET, RULE, SIZE, START, TEST,
};

/// A small generator of pseudo-random numbers (splitmix64).
pub struct Random(u64);

impl Random {
    pub fn new(seed: u64) -> Self {
        Random(seed)
    }

    fn next(&mut self) -> u64 {
        self.0 = self.0.wrapping_add(0x9E37_79B9_7F4A_7C15);
        let mut z = self.0;
        z = (z ^ (z >> 30)).wrapping_mul(0xBF58_476D_1CE4_E5B9);
        z = (z ^ (z >> 27)).wrapping_mul(0x94D0_49BB_1331_11EB);
        z ^ (z >> 31)
    }

    /// A number below the bound.
    pub fn below(&mut self, bound: usize) -> usize {
        (self.next() % bound as u64) as usize
    }

    /// A number from `low` to `high`, both included.
    pub fn between(&mut self, low: usize, high: usize) -> usize {
        low + self.below(high - low + 1)
    }

    pub fn chance(&mut self, percent: usize) -> bool {
        self.below(100) < percent
    }

    pub fn pick<T: Copy>(&mut self, list: &[T]) -> T {
        list[self.below(list.len())]
    }

    pub fn shuffle<T>(&mut self, list: &mut [T]) {
        for i in (1..list.len()).rev() {
            list.swap(i, self.below(i + 1));
        }
    }
}

/// The most that a generated sheet may have of each thing.
#[derive(Clone, Copy)]
pub struct Shape {
    pub states: usize,
    pub presses: usize,
    pub sounds: usize,
    pub faults: usize,
    pub tests: usize,
    pub test_length: usize,
    pub open_pairs: usize,
    pub boards: u64,
}

/// Sheets of a few states.
pub const SMALL: Shape = Shape {
    states: 5,
    presses: 4,
    sounds: 3,
    faults: 14,
    tests: 6,
    test_length: 9,
    open_pairs: 32,
    boards: u64::MAX,
};

/// Sheets of any size, within the limits.
pub const LARGE: Shape = Shape {
    states: 16,
    presses: 16,
    sounds: 16,
    faults: 60,
    tests: 20,
    test_length: 40,
    open_pairs: 32,
    boards: u64::MAX,
};

/// A sheet in the making, with what its boards come to so far.
struct Draft<'a> {
    random: &'a mut Random,
    shape: &'a Shape,
    sheet: Sheet,
    /// How often, in percent, an output is 0 whatever else is drawn.
    zeros: usize,
    open_pairs: usize,
    boards: u64,
}

/// A sheet within the shape, accepted if the shape keeps 01's limits.
pub fn sheet(random: &mut Random, shape: &Shape) -> Sheet {
    let mut draft = Draft::new(random, shape);
    draft.reach_every_state();
    draft.add_starts();
    draft.fill_pairs();
    draft.add_faults();
    draft.add_tests();
    draft.sheet
}

impl<'a> Draft<'a> {
    fn new(random: &'a mut Random, shape: &'a Shape) -> Self {
        let sheet = Sheet {
            states: random.between(1, shape.states) as u8,
            presses: random.between(1, shape.presses) as u8,
            sounds: random.between(1, shape.sounds) as u8,
            quiet: random.chance(30),
            ..Sheet::default()
        };
        Draft {
            zeros: random.pick(&[0, 0, 50, 80, 95]),
            random,
            shape,
            sheet,
            open_pairs: 0,
            boards: 1,
        }
    }

    fn sound(&mut self) -> u8 {
        if self.random.chance(self.zeros) {
            return 0;
        }
        self.random.below(self.sheet.sounds.into()) as u8
    }

    fn state(&mut self) -> u8 {
        self.random.below(self.sheet.states.into()) as u8
    }

    /// Rules along which every state is reached: a row by press 0, or a random tree.
    fn reach_every_state(&mut self) {
        let row = self.random.chance(50);
        for t in 1..self.sheet.states {
            let pair = if row { (t - 1, 0) } else { self.free_pair(t) };
            let sound = self.sound();
            self.sheet.rules.insert(pair, (sound, t));
        }
    }

    /// A pair without a rule at one of the first states.
    fn free_pair(&mut self, states: u8) -> Pair {
        loop {
            let s = self.random.below(states.into()) as u8;
            let x = self.random.below(self.sheet.presses.into()) as u8;
            if !self.sheet.rules.contains_key(&(s, x)) {
                return (s, x);
            }
        }
    }

    /// Gives a pair `new` choices in place of `old` if the shape allows it.
    fn afford(&mut self, old: u64, new: u64) -> bool {
        let opened = usize::from(old == 1 && new > 1);
        let boards = (self.boards / old).saturating_mul(new);
        if self.open_pairs + opened > self.shape.open_pairs || boards > self.shape.boards {
            return false;
        }
        self.open_pairs += opened;
        self.boards = boards;
        true
    }

    /// Some of the states other than 0 as waking states, in half of all sheets none.
    fn add_starts(&mut self) {
        let listed = self.random.pick(&[0, 0, 0, 20, 60, 100]);
        for t in 1..self.sheet.states {
            let choices = 1 + self.sheet.starts.len() as u64;
            if self.random.chance(listed) && self.afford(choices, choices + 1) {
                self.sheet.starts.insert(t);
            }
        }
    }

    /// A rule at each other pair, but for some.
    fn fill_pairs(&mut self) {
        let specified = self.random.pick(&[0, 30, 60, 90, 100]);
        let mut pairs: Vec<Pair> = self.sheet.pairs().collect();
        self.random.shuffle(&mut pairs);
        let moves = match self.sheet.quiet {
            true => 1,
            false => u64::from(self.sheet.sounds) * u64::from(self.sheet.states),
        };
        for pair in pairs {
            if self.sheet.rules.contains_key(&pair) {
                continue;
            }
            if self.random.chance(specified) || !self.afford(1, moves) {
                let to = (self.sound(), self.state());
                self.sheet.rules.insert(pair, to);
            }
        }
    }

    fn add_faults(&mut self) {
        let pairs: Vec<Pair> = self.sheet.rules.keys().copied().collect();
        if pairs.is_empty() {
            return;
        }
        for _ in 0..self.random.below(self.shape.faults + 1) {
            let pair = self.random.pick(&pairs);
            let fault = (pair, self.wrong_move(pair));
            let choices = 1 + self.sheet.faults_at(pair).count() as u64;
            let fresh = fault.1 != self.sheet.rules[&pair] && !self.sheet.faults.contains(&fault);
            if fresh && self.afford(choices, choices + 1) {
                self.sheet.faults.insert(fault);
            }
        }
    }

    /// A move near the rule's: another sound, another state, or both.
    fn wrong_move(&mut self, pair: Pair) -> Move {
        let (o, t) = self.sheet.rules[&pair];
        match self.random.below(4) {
            0 => (self.random.below(self.sheet.sounds.into()) as u8, t),
            1 | 2 => (o, self.state()),
            _ => (self.sound(), self.state()),
        }
    }

    fn add_tests(&mut self) {
        for _ in 0..self.random.below(self.shape.tests + 1) {
            let length = self.random.below(self.shape.test_length + 1);
            let test = walk(self.random, &self.sheet, length);
            self.sheet.tests.push(test);
        }
    }
}

/// A defined sequence of at most this length.
pub fn walk(random: &mut Random, sheet: &Sheet, length: usize) -> Vec<u8> {
    let mut presses = Vec::new();
    let mut state = 0;
    while presses.len() < length {
        let x = random.below(sheet.presses.into()) as u8;
        let defined = |x: &u8| sheet.rules.contains_key(&(state, *x));
        let Some(x) = [x].into_iter().chain(0..sheet.presses).find(defined) else {
            break;
        };
        presses.push(x);
        state = sheet.rules[&(state, x)].1;
    }
    presses
}

/// A sheet near one of the limits, on either side of it.
pub fn at_limit(random: &mut Random) -> Vec<u8> {
    match random.below(6) {
        0 => many_tests(random.between(254, 258), random.below(2)),
        1 => long_test(random.between(254, 258)),
        2 => many_faults(random.between(250, 258)),
        3 => faults_at_one_pair(random.between(250, 255)),
        4 => many_open_pairs(random),
        _ => of_length(random.between(MOST_BYTES - 2, MOST_BYTES + 2)),
    }
}

/// One state with one rule for its one press.
fn loop_sheet() -> Sheet {
    Sheet {
        states: 1,
        presses: 1,
        sounds: 1,
        rules: [((0, 0), (0, 0))].into(),
        ..Sheet::default()
    }
}

/// So many tests of so many presses.
pub fn many_tests(number: usize, presses: usize) -> Vec<u8> {
    let tests = vec![vec![0; presses]; number];
    Sheet {
        tests,
        ..loop_sheet()
    }
    .encode()
}

/// One test of so many presses after an empty one.
pub fn long_test(presses: usize) -> Vec<u8> {
    let tests = vec![vec![], vec![0; presses]];
    Sheet {
        tests,
        ..loop_sheet()
    }
    .encode()
}

/// Sixteen states in a row and back, by press 0, with so many presses and sixteen sounds.
pub fn ring(presses: u8) -> Sheet {
    Sheet {
        states: 16,
        presses,
        sounds: 16,
        rules: (0..16).map(|s| ((s, 0), (s, (s + 1) % 16))).collect(),
        ..Sheet::default()
    }
}

/// All moves but one, in ascending order.
fn moves_but(rule: Move) -> impl Iterator<Item = Move> {
    (0..16)
        .flat_map(|o| (0..16).map(move |t| (o, t)))
        .filter(move |&to| to != rule)
}

/// So many faults, up to 255 at the pair of each state of the ring.
pub fn many_faults(number: usize) -> Vec<u8> {
    let mut sheet = ring(1);
    let faults = sheet
        .rules
        .iter()
        .flat_map(|(&pair, &rule)| moves_but(rule).map(move |to| (pair, to)));
    sheet.faults = faults.take(number).collect();
    sheet.encode()
}

/// So many faults, at most 255, all at the pair (3, 0).
pub fn faults_at_one_pair(number: usize) -> Vec<u8> {
    let mut sheet = ring(1);
    let rule = sheet.rules[&(3, 0)];
    let faults = moves_but(rule).take(number);
    sheet.faults = faults.map(|to| ((3, 0), to)).collect();
    sheet.encode()
}

fn many_open_pairs(random: &mut Random) -> Vec<u8> {
    let shape = Shape {
        open_pairs: random.between(30, 36),
        ..LARGE
    };
    sheet(random, &shape).encode()
}

/// A sheet of exactly so many bytes, well-formed but for its length.
pub fn of_length(bytes: usize) -> Vec<u8> {
    let rest = bytes - loop_sheet().encode().len();
    let mut tests = rest.div_ceil(513);
    if tests % 2 != rest % 2 {
        tests += 1;
    }
    let presses = (rest - tests) / 2;
    let length = |i: usize| presses.saturating_sub(i * 256).min(256);
    Sheet {
        tests: (0..tests).map(|i| vec![0; length(i)]).collect(),
        ..loop_sheet()
    }
    .encode()
}

/// A sheet's commands one by one, as far as they can be told apart.
pub fn commands(bytes: &[u8]) -> Vec<Vec<u8>> {
    let mut list = Vec::new();
    let mut rest = bytes;
    while let Some(&command) = rest.first() {
        let width = match command {
            SIZE => 4,
            RULE | FAULT => 5,
            START | PRESS => 2,
            _ => 1,
        };
        let (first, later) = rest.split_at(width.min(rest.len()));
        list.push(first.to_vec());
        rest = later;
    }
    list
}

/// The bytes with one or two things gone wrong.
pub fn damaged(random: &mut Random, bytes: &[u8]) -> Vec<u8> {
    let mut bytes = bytes.to_vec();
    for _ in 0..random.between(1, 2) {
        if bytes.is_empty() {
            break;
        }
        if random.chance(50) {
            damage_bytes(random, &mut bytes);
        } else {
            bytes = damage_commands(random, &bytes);
        }
    }
    bytes
}

fn damage_bytes(random: &mut Random, bytes: &mut Vec<u8>) {
    let place = random.below(bytes.len());
    match random.below(7) {
        0 => bytes[place] = random.below(256) as u8,
        1 => bytes[place] = random.below(18) as u8,
        2 => bytes[place] = bytes[place].wrapping_add(1),
        3 => bytes[place] = bytes[place].wrapping_sub(1),
        4 => bytes.truncate(place),
        5 => bytes.insert(place, random.below(8) as u8),
        _ => bytes.push(random.below(8) as u8),
    }
}

fn damage_commands(random: &mut Random, bytes: &[u8]) -> Vec<u8> {
    let mut list = commands(bytes);
    let place = random.below(list.len());
    match random.below(6) {
        0 => {
            let other = random.below(list.len());
            list.swap(place, other);
        }
        1 if place + 1 < list.len() => list.swap(place, place + 1),
        2 => list.insert(place, list[place].clone()),
        3 => {
            list.remove(place);
        }
        4 => {
            let other = list.remove(place);
            let place = random.below(list.len() + 1);
            list.insert(place, other);
        }
        _ => list.insert(place, some_command(random, 4)),
    }
    list.concat()
}

/// A command with operands below the bound.
fn some_command(random: &mut Random, bound: usize) -> Vec<u8> {
    let command = random.pick(&[
        RULE, RULE, FAULT, START, TEST, PRESS, PRESS, SIZE, QUIET, END,
    ]);
    let width = match command {
        SIZE => 3,
        RULE | FAULT => 4,
        START | PRESS => 1,
        _ => 0,
    };
    let mut bytes = vec![command];
    bytes.extend((0..width).map(|_| random.below(bound) as u8));
    bytes
}

/// Bytes without much sense: commands with small operands, and other bytes.
pub fn noise(random: &mut Random) -> Vec<u8> {
    let mut bytes = Vec::new();
    let bound = random.between(1, 3);
    if random.chance(85) {
        bytes.push(SIZE);
        bytes.extend((0..3).map(|_| random.between(1, bound) as u8));
    }
    for _ in 0..random.below(16) {
        if random.chance(95) {
            bytes.extend(some_command(random, bound));
        } else {
            bytes.push(random.below(256) as u8);
        }
    }
    if random.chance(60) {
        bytes.push(END);
    }
    bytes
}

/// A sheet of any kind.
pub fn any_bytes(random: &mut Random) -> Vec<u8> {
    let bytes = match random.below(200) {
        0..=1 => at_limit(random),
        2..=59 => noise(random),
        60..=79 => sheet(random, &LARGE).encode(),
        _ => sheet(random, &SMALL).encode(),
    };
    if random.chance(55) {
        damaged(random, &bytes)
    } else {
        bytes
    }
}

/// A board in range.
pub fn board(random: &mut Random, counts: &[usize]) -> Vec<u8> {
    let sparse = random.chance(50);
    let choice = |&count: &usize| match sparse && random.chance(70) {
        true => 0,
        false => random.below(count) as u8,
    };
    counts.iter().map(choice).collect()
}

/// A board that is mostly in range, else of another length or with a choice out of range.
pub fn any_board(random: &mut Random, counts: &[usize]) -> Vec<u8> {
    let mut bytes = board(random, counts);
    match random.below(20) {
        0 => bytes.push(0),
        1 => {
            bytes.pop();
        }
        2 => bytes = (0..random.below(40)).map(|_| 0).collect(),
        3 | 4 if !bytes.is_empty() => {
            for _ in 0..random.between(1, 2) {
                let place = random.below(bytes.len());
                let beyond = random.pick(&[0, 0, 1, 200]);
                bytes[place] = (counts[place] + beyond).min(255) as u8;
            }
        }
        _ => {}
    }
    bytes
}
