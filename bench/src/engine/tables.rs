//! A sheet as the engine wants it: tables, and the suite as a log.

use super::cubes::{among, has, output, target, Settled, States, Step, ANY};
use super::notes::{Prefix, UNSETTLED};
use crate::plain::{self, pair, NONE};
use ranthelo_tests::reference::TEST;

/// No suspect at a pair.
pub const FIXED: usize = 255;
/// The pair, as it were, of the waking state: its transition comes with each reset, and has the
/// output 0.
pub const WAKING: usize = 256;
/// In the log a reset; otherwise an observation is input * 16 + output.
pub const RESET: u16 = 256;

/// Indexed by pair, state * 16 + input, or by suspect.
pub struct Tables<'a> {
    pub sheet: &'a plain::Tables<'a>,
    pub states: usize,
    pub inputs: usize,
    pub outputs: usize,
    pub suspects: usize,
    /// The suspect at a pair, and the transition of a pair that is none.
    pub site: [u8; 257],
    pub lone: [u8; 257],
    /// The pair of a suspect, and its number of choices.
    pub pair_of: [u16; 32],
    pub counts: [u16; 32],
    /// The outputs that a suspect has, and by suspect * 16 + output the next states.
    pub outs: [u16; 32],
    pub free: [States; 512],
    /// By state: the states with which it can be exchanged.
    pub swap: [States; 16],
    /// The suite with the specified outputs and a reset at its end, and the places after resets.
    pub log: Vec<u16>,
    pub begin: Vec<usize>,
}

impl<'a> Tables<'a> {
    /// The tables of a sheet; nothing is known yet of states to exchange.
    pub fn new(sheet: &'a plain::Tables<'a>) -> Self {
        let mut tables = Tables {
            sheet,
            states: sheet.states.into(),
            inputs: sheet.inputs.into(),
            outputs: sheet.outputs.into(),
            suspects: 0,
            site: [FIXED as u8; 257],
            lone: [0; 257],
            pair_of: [0; 32],
            counts: [1; 32],
            outs: [0; 32],
            free: [0; 512],
            swap: [0; 16],
            log: Vec::with_capacity(sheet.suite.len() + 1),
            begin: Vec::with_capacity(sheet.summary.tests + 1),
        };
        tables.add_pair(WAKING);
        for s in 0..sheet.states {
            for x in 0..sheet.inputs {
                tables.add_pair(pair(s, x));
            }
        }
        tables.add_log();
        tables
    }

    fn add_pair(&mut self, k: usize) {
        let count = self.count(k);
        if count == 1 {
            self.lone[k] = self.transition(k, 0);
            return;
        }
        let i = self.suspects;
        self.suspects += 1;
        self.site[k] = i as u8;
        self.pair_of[i] = k as u16;
        self.counts[i] = count as u16;
        if k != WAKING && self.sheet.rules[k].1 == NONE {
            let all = |n| (u32::MAX >> (32 - n)) as u16;
            self.outs[i] = all(self.outputs);
            self.free[i * 16..][..self.outputs].fill(all(self.states));
            return;
        }
        for c in 0..count {
            let step = self.transition(k, c as u16);
            self.outs[i] |= 1 << output(step);
            self.free[i * 16 + output(step)] |= 1 << target(step);
        }
    }

    fn add_log(&mut self) {
        let mut commands = self.sheet.suite.iter();
        let mut state = 0;
        while let Some(&command) = commands.next() {
            if command == TEST {
                self.add_reset();
                state = 0;
            } else if let Some(&x) = commands.next() {
                let (output, next) = self.sheet.rules[pair(state, x)];
                self.log.push(u16::from(x) * 16 + u16::from(output));
                state = next;
            }
        }
        self.add_reset();
    }

    fn add_reset(&mut self) {
        self.log.push(RESET);
        self.begin.push(self.log.len());
    }

    /// How many choices a pair has.
    fn count(&self, k: usize) -> usize {
        match k {
            WAKING => self.sheet.waking,
            _ => self.sheet.choices(k),
        }
    }

    /// The transition of a choice at a pair.
    fn transition(&self, k: usize, choice: u16) -> u8 {
        if k == WAKING {
            return self.sheet.wakings[usize::from(choice)];
        }
        let (output, next) = self.sheet.choice(k, choice as u8);
        output * 16 + next
    }

    /// The transition of a choice of a suspect.
    pub fn choice(&self, i: usize, choice: u16) -> u8 {
        self.transition(self.pair_of[i].into(), choice)
    }

    pub fn tests(&self) -> usize {
        self.begin.len() - 1
    }

    /// The inputs of a test and the specified outputs.
    pub fn observations(&self, test: usize) -> &[u16] {
        &self.log[self.begin[test]..self.begin[test + 1] - 1]
    }

    /// The settled part that a prefix is.
    pub fn settled(&self, prefix: &Prefix) -> Settled {
        let mut p = Settled::NONE;
        for i in (0..self.suspects).filter(|&i| prefix[i] != UNSETTLED) {
            p.settle(i, self.choice(i, prefix[i]));
        }
        p
    }

    /// The output and the next state of the rule at a pair, if there is one.
    pub fn rule(&self, k: usize) -> Option<(usize, usize)> {
        let (output, next) = self.sheet.rules[k];
        (next != NONE).then_some((output.into(), next.into()))
    }

    /// What a settled part does at a pair.
    pub fn step(&self, p: &Settled, k: usize) -> Step {
        match usize::from(self.site[k]) {
            FIXED => Step::Takes(self.lone[k], 0),
            i if among(p.set, i) => Step::Takes(p.steps[i], 1 << i),
            i => Step::Waits(i),
        }
    }
}

/// The input and the output of an observation.
pub fn parts(observation: u16) -> (usize, usize) {
    (usize::from(observation / 16), usize::from(observation % 16))
}

// Exchanging two states.

fn exchanged(set: States, a: usize, b: usize) -> States {
    if has(set, a) == has(set, b) {
        return set;
    }
    set ^ (1 << a | 1 << b)
}

fn other(s: usize, a: usize, b: usize) -> usize {
    match s {
        _ if s == a => b,
        _ if s == b => a,
        _ => s,
    }
}

impl Tables<'_> {
    /// Finds the states that can be exchanged: no mutant starts there, and every pair has the
    /// choices of its image.
    pub fn find_swaps(&mut self) {
        let wakings = self.starts(&[ANY; 32]);
        for a in 0..self.states {
            for b in 0..a {
                let asleep = !has(wakings, a) && !has(wakings, b);
                if asleep && self.swappable(a, b) {
                    self.swap[a] |= 1 << b;
                    self.swap[b] |= 1 << a;
                }
            }
        }
    }

    /// Most states differ from each other in their own pairs, which are looked at first.
    fn swappable(&self, a: usize, b: usize) -> bool {
        self.row_swaps(a, a, b) && (0..self.states).all(|s| self.row_swaps(s, a, b))
    }

    fn row_swaps(&self, s: usize, a: usize, b: usize) -> bool {
        (0..self.inputs).all(|x| self.pair_swaps(s * 16 + x, other(s, a, b) * 16 + x, a, b))
    }

    /// Whether one pair has the choices of another with a and b exchanged.
    fn pair_swaps(&self, k: usize, image: usize, a: usize, b: usize) -> bool {
        let (i, j) = (usize::from(self.site[k]), usize::from(self.site[image]));
        if i == FIXED || j == FIXED {
            let (k, image) = (self.lone[k], self.lone[image]);
            let same = output(k) == output(image) && other(target(k), a, b) == target(image);
            return i == j && same;
        }
        (0..16).all(|o| exchanged(self.free[i * 16 + o], a, b) == self.free[j * 16 + o])
    }
}
