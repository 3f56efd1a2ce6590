//! Sheets to measure on, made from seeds.

use crate::{engine, plain};
use ranthelo_tests::generator::{self, Random};
use ranthelo_tests::reference::{self, Pair, Sheet, MOST_BYTES};

/// Seeds of 02's generator whose sheets of the largest size have 32 faults.
pub const SEEDS: std::ops::Range<u32> = 4..7;
pub const LARGEST: [u8; 3] = [16, 16, 16];

/// The machine that every bench has of a seed and a size.
pub fn seeded(seed: u32, size: [u8; 3]) -> Sheet {
    let mut buffer = [0; MOST_BYTES];
    let length = plain::generate(seed, size, &mut buffer).expect("a size in range");
    let reading = reference::read(&buffer[..length]);
    reading.expect("an accepted sheet").sheet
}

/// What a family's machines have.
pub struct Family {
    pub states: u8,
    pub inputs: u8,
    pub outputs: u8,
    /// How many of 100 outputs are 0; all of them if there is but one.
    pub zeros: usize,
    /// Pairs without a rule.
    pub unspecified: usize,
    /// Pairs with faults, and how many faults in all.
    pub faulty: usize,
    pub faults: usize,
}

/// Completely specified, 29 suspects, about 10^11 mutants.
pub const COMPLETE: Family = Family {
    states: 14,
    inputs: 16,
    outputs: 4,
    zeros: 25,
    unspecified: 0,
    faulty: 29,
    faults: 44,
};

/// The same with 46 faults: the shape of the industrial machine of source document 000, with 16 inputs for its 24.
pub const PUBLISHED: Family = Family {
    faults: 46,
    ..COMPLETE
};

/// Combination locks: nearly every output is 0.
pub const LOCK: Family = Family {
    states: 12,
    inputs: 8,
    outputs: 2,
    zeros: 95,
    unspecified: 0,
    faulty: 28,
    faults: 36,
};

/// Partly specified, 8 suspects with any of 16 moves and 16 with faults.
pub const PARTIAL: Family = Family {
    states: 8,
    inputs: 4,
    outputs: 2,
    zeros: 80,
    unspecified: 8,
    faulty: 16,
    faults: 24,
};

/// Partly specified, 8 suspects with any of 16 moves and 10 faults.
pub const TEN_FAULTS: Family = Family {
    faulty: 10,
    faults: 10,
    ..PARTIAL
};

/// A sheet of the family without tests.
pub fn sheet(family: &Family, seed: u64) -> Sheet {
    let random = &mut Random::new(seed);
    let mut sheet = Sheet {
        states: family.states,
        presses: family.inputs,
        sounds: family.outputs,
        ..Sheet::default()
    };
    let tree = add_rules(&mut sheet, family, random);
    remove_rules(&mut sheet, &tree, family.unspecified, random);
    add_faults(&mut sheet, family, random);
    sheet
}

/// The sheet with its highest states as STARTs, so many.
pub fn waking(mut sheet: Sheet, starts: u8) -> Sheet {
    sheet.starts = (sheet.states - starts..sheet.states).collect();
    sheet
}

fn output(family: &Family, random: &mut Random) -> u8 {
    if random.chance(family.zeros) {
        return 0;
    }
    random.between(1, usize::from(family.outputs) - 1) as u8
}

/// A rule at every pair; gives the pairs along which every state is reached.
fn add_rules(sheet: &mut Sheet, family: &Family, random: &mut Random) -> Vec<Pair> {
    let pairs: Vec<Pair> = sheet.pairs().collect();
    for pair in pairs {
        let to = (
            output(family, random),
            random.below(sheet.states.into()) as u8,
        );
        sheet.rules.insert(pair, to);
    }
    let mut tree: Vec<Pair> = Vec::new();
    for t in 1..sheet.states {
        let pair = loop {
            let s = random.below(t.into()) as u8;
            let pair = (s, random.below(sheet.presses.into()) as u8);
            if !tree.contains(&pair) {
                break pair;
            }
        };
        sheet.rules.insert(pair, (output(family, random), t));
        tree.push(pair);
    }
    tree
}

fn remove_rules(sheet: &mut Sheet, kept: &[Pair], number: usize, random: &mut Random) {
    let mut pairs: Vec<Pair> = sheet.pairs().filter(|pair| !kept.contains(pair)).collect();
    random.shuffle(&mut pairs);
    for pair in &pairs[..number] {
        sheet.rules.remove(pair);
    }
}

/// One fault at each of some pairs, and then more at the same pairs.
fn add_faults(sheet: &mut Sheet, family: &Family, random: &mut Random) {
    let mut pairs: Vec<Pair> = sheet.rules.keys().copied().collect();
    random.shuffle(&mut pairs);
    let pairs = &pairs[..family.faulty];
    for i in 0..family.faults {
        let pair = pairs[i % pairs.len()];
        let (o, t) = sheet.rules[&pair];
        loop {
            let to = if random.chance(80) {
                (o, random.below(sheet.states.into()) as u8)
            } else {
                (random.below(sheet.sounds.into()) as u8, t)
            };
            if to != (o, t) && sheet.faults.insert((pair, to)) {
                break;
            }
        }
    }
}

/// Sixteen states and inputs, 256 rules, 256 faults at 32 pairs, no tests.
pub const FULL: Family = Family {
    states: 16,
    inputs: 16,
    outputs: 16,
    zeros: 6,
    unspecified: 0,
    faulty: 32,
    faults: 256,
};

/// Sixteen states and inputs whose only outputs are 0: pairs of states are never told apart.
pub const SILENT: Family = Family {
    outputs: 1,
    zeros: 100,
    faults: 64,
    ..FULL
};

/// Sixteen states and inputs with few outputs other than 0.
pub const QUIET: Family = Family {
    outputs: 2,
    zeros: 98,
    faults: 64,
    ..FULL
};

/// A suspect at each of 32 pairs, and few outputs that tell them apart.
pub const DEEP: Family = Family {
    states: 16,
    inputs: 2,
    outputs: 2,
    zeros: 95,
    unspecified: 0,
    faulty: 32,
    faults: 32,
};

/// 32 unspecified pairs of 256 choices and no fault.
pub fn wide() -> Sheet {
    let mut sheet = generator::ring(3);
    sheet.tests = vec![vec![0; 32]];
    sheet
}

/// The sheet with tests added until it has exactly so many bytes.
pub fn filled(mut sheet: Sheet, bytes: usize, seed: u64) -> Sheet {
    let random = &mut Random::new(seed);
    let rest = bytes - sheet.encode().len();
    let mut tests = rest.div_ceil(1 + 2 * 256);
    if tests % 2 != rest % 2 {
        tests += 1;
    }
    let mut inputs = (rest - tests) / 2;
    for _ in 0..tests {
        let test = generator::walk(random, &sheet, inputs.min(256));
        inputs -= test.len();
        sheet.tests.push(test);
    }
    sheet
}

/// The sheet with its suite made complete by the sequences of its survivors, if they fit.
pub fn completed(mut sheet: Sheet) -> Option<Sheet> {
    loop {
        let judgement = engine::judge(&sheet.encode()).ok()?;
        let Some(survivor) = judgement.survivor else {
            return Some(sheet);
        };
        sheet.tests.push(survivor.sequence);
    }
}

/// The sheet without tests.
pub fn without_tests(mut sheet: Sheet) -> Sheet {
    sheet.tests.clear();
    sheet
}

/// The sheet without its last test, which a survivor brought in.
pub fn with_one_dropped(mut sheet: Sheet) -> Sheet {
    sheet.tests.pop();
    sheet
}

/// States, inputs, pairs without a rule, and a seed of a machine that is hard to judge.
pub const UNSPECIFIED: [(u8, u8, usize, u64); 6] = [
    (4, 8, 12, 4),
    (6, 6, 12, 3),
    (8, 8, 16, 1),
    (13, 4, 8, 3),
    (12, 6, 24, 2),
    (16, 4, 12, 3),
];

/// A nearly silent machine with many pairs without a rule and few faults.
pub fn unspecified(states: u8, inputs: u8, unspecified: usize, seed: u64) -> Sheet {
    let family = Family {
        states,
        inputs,
        outputs: 2,
        zeros: 97,
        unspecified,
        faulty: 4,
        faults: 6,
    };
    sheet(&family, seed)
}

fn sized(states: u8, inputs: u8) -> Sheet {
    Sheet {
        states,
        presses: inputs,
        sounds: 2,
        ..Sheet::default()
    }
}

/// States and inputs such that no more than 256 faults are needed.
pub const FREE: [(u8, u8); 5] = [(4, 8), (5, 5), (6, 3), (8, 2), (11, 1)];

/// A machine of two outputs all of whose transitions are free: a ring by input 0, and at every
/// pair a fault for every transition that is not the rule.
pub fn free(states: u8, inputs: u8, seed: u64) -> Sheet {
    let random = &mut Random::new(seed);
    let mut sheet = sized(states, inputs);
    let pairs: Vec<Pair> = sheet.pairs().collect();
    for (s, x) in pairs {
        let mut to = (random.below(2) as u8, (s + 1) % states);
        if x > 0 {
            to.1 = random.below(states.into()) as u8;
        }
        sheet.rules.insert((s, x), to);
        let all = (0..2).flat_map(|o| (0..states).map(move |t| (o, t)));
        let faults = all.filter(|&other| other != to);
        sheet.faults.extend(faults.map(|other| ((s, x), other)));
    }
    sheet
}

/// States, inputs, and faults at each suspect.
pub const COMBINATIONS: [(u8, u8, usize); 2] = [(16, 3, 2), (8, 4, 5)];

/// A combination lock: one input of each state leads on, the others back to the first, and only
/// the last step is heard. 32 suspects, each with some other next states.
pub fn combination(states: u8, inputs: u8, faults: usize, seed: u64) -> Sheet {
    let random = &mut Random::new(seed);
    let mut sheet = sized(states, inputs);
    let mut pairs: Vec<Pair> = sheet.pairs().collect();
    for &pair in &pairs {
        sheet.rules.insert(pair, (0, 0));
    }
    for s in 0..states {
        let right = random.below(inputs.into()) as u8;
        let opens = u8::from(s == states - 1);
        sheet.rules.insert((s, right), (opens, (s + 1) % states));
    }
    random.shuffle(&mut pairs);
    for &pair in &pairs[..32] {
        let (o, t) = sheet.rules[&pair];
        let mut others: Vec<u8> = (0..states).filter(|&other| other != t).collect();
        random.shuffle(&mut others);
        let faults = others[..faults].iter().map(|&other| (pair, (o, other)));
        sheet.faults.extend(faults);
    }
    sheet
}

// Formulas as sheets. The specification goes from START to DONE and is silent from then on. A
// mutant that goes to HUB instead meets the variables, and its suspects at the last input are
// unspecified. Each test leads from HUB back to HUB if a constraint is broken, otherwise to
// TRAP, and ends with the last input. So a mutant survives that is heard at HUB, and breaks no
// constraint.

const START: u8 = 0;
const DONE: u8 = 1;
const TRAP: u8 = 2;
const HUB: u8 = 3;
const LAST: u8 = 15;

/// The rules that all formulas share: every other one leads back to the same state.
fn formula(states: u8) -> Sheet {
    let mut sheet = sized(states, 16);
    let pairs: Vec<Pair> = sheet.pairs().collect();
    for (s, x) in pairs {
        if x != LAST || s < TRAP {
            sheet.rules.insert((s, x), (0, s));
        }
    }
    for (x, t) in [(0, DONE), (1, HUB), (2, TRAP)] {
        sheet.rules.insert((START, x), (0, t));
    }
    sheet.faults.insert(((START, 0), (0, HUB)));
    sheet
}

/// Adds a test from HUB on.
fn add_constraint(sheet: &mut Sheet, inputs: impl IntoIterator<Item = u8>) {
    let inputs = inputs.into_iter();
    sheet
        .tests
        .push([0].into_iter().chain(inputs).chain([LAST]).collect());
}

/// A variable: a rule and faults for its other values.
fn add_variable(sheet: &mut Sheet, pair: Pair, values: &[u8], random: &mut Random) {
    let value = random.pick(values);
    sheet.rules.insert(pair, (0, value));
    let others = values.iter().filter(|&&other| other != value);
    sheet.faults.extend(others.map(|&other| (pair, (0, other))));
}

/// Numbers of clauses, and seeds: of the first formula all clauses can be met.
pub const CLAUSES: [(usize, u64); 3] = [(111, 1), (111, 2), (120, 3)];

/// A random formula of 26 variables with three literals in each clause. Some variables are at
/// HUB, the others at a second bank.
pub fn three_literals(clauses: usize, seed: u64) -> Sheet {
    const BANK: u8 = 4;
    const TRUE: u8 = 5;
    const FALSE: u8 = 6;
    const SWITCH: u8 = 14;
    let random = &mut Random::new(seed);
    let mut sheet = formula(7);
    let mut add = |s, x, t| sheet.rules.insert((s, x), (0, t));
    for (s, x, t) in [
        (HUB, 0, TRUE),
        (HUB, 1, FALSE),
        (HUB, SWITCH, BANK),
        (BANK, SWITCH, HUB),
    ] {
        add(s, x, t);
    }
    for (s, wanted) in [(TRUE, 0), (FALSE, 1)] {
        add(s, wanted, HUB);
        add(s, 1 - wanted, TRAP);
    }
    let at_hub = (2..SWITCH).map(|x| (HUB, x));
    let mut variables: Vec<Pair> = at_hub.chain((0..SWITCH).map(|x| (BANK, x))).collect();
    for &variable in &variables {
        add_variable(&mut sheet, variable, &[TRUE, FALSE], random);
    }
    for x in [SWITCH, 0, 1] {
        add_constraint(&mut sheet, [x]);
    }
    for _ in 0..clauses {
        random.shuffle(&mut variables);
        let mut inputs = Vec::new();
        for &(s, x) in &variables[..3] {
            inputs.extend((s == BANK).then_some(SWITCH));
            inputs.extend([x, random.below(2) as u8]);
        }
        add_constraint(&mut sheet, inputs);
    }
    sheet
}

/// So many pigeons for one hole less.
pub fn pigeons(pigeons: u8, seed: u64) -> Sheet {
    let random = &mut Random::new(seed);
    let holes = pigeons - 1;
    let state = |hole| HUB + 1 + hole;
    let mut sheet = formula(state(holes));
    let values: Vec<u8> = (0..holes).map(state).collect();
    for hole in 0..holes {
        sheet.rules.insert((HUB, hole), (0, state(hole)));
        for asked in 0..holes {
            let to = if asked == hole { HUB } else { TRAP };
            sheet.rules.insert((state(hole), asked), (0, to));
        }
        add_constraint(&mut sheet, [hole]);
    }
    let mut inputs: Vec<u8> = (holes..holes + pigeons).collect();
    for &pigeon in &inputs {
        add_variable(&mut sheet, (HUB, pigeon), &values, random);
    }
    random.shuffle(&mut inputs);
    for (i, &one) in inputs.iter().enumerate() {
        for &other in &inputs[..i] {
            for hole in 0..holes {
                add_constraint(&mut sheet, [one, hole, other, hole]);
            }
        }
    }
    sheet
}

macro_rules! kept {
    ($($name:literal),* $(,)?) => {
        [$(($name, include_bytes!(concat!("../machines/", $name, ".sheet")))),*]
    };
}

/// Sheets that engines found hard: machines completely and partly specified, with states that
/// are alike or all transitions free, combination locks, and formulas.
pub const KEPT: [(&str, &[u8]); 14] = kept![
    "v1",
    "c2",
    "p3",
    "h2",
    "h5",
    "twin-32-1",
    "unspecified-10",
    "unspecified-214",
    "chaos-10-1",
    "chaos-6-1",
    "chaos-5-1",
    "combo-16-2",
    "sat-26-1",
    "php-7-1",
];
