//! How far each test has come under a settled part, and what the waiting ones refute.

use super::cubes::{output, target, Settled, Step};
use super::marks::{Marks, FROM_TEST};
use super::tables::{parts, Tables, RESET, WAKING};

/// Waits for no suspect: the test is through, or not begun.
const THROUGH: u8 = 255;
const FRESH: u8 = 254;

/// By test: the place of its next event, the state, and the suspect that it waits for. A test that
/// waits for the waking state has no state yet.
#[derive(Clone)]
pub struct Cursors {
    at: [u16; 256],
    state: [u8; 256],
    wait: [u8; 256],
}

impl Cursors {
    pub fn new(tables: &Tables<'_>, p: &Settled) -> Self {
        let mut at = [0; 256];
        for (at, &begin) in at.iter_mut().zip(&tables.begin) {
            *at = begin as u16;
        }
        let (state, wait) = match tables.step(p, WAKING) {
            Step::Takes(step, _) => (target(step) as u8, FRESH),
            Step::Waits(i) => (0, i as u8),
        };
        Cursors {
            at,
            state: [state; 256],
            wait: [wait; 256],
        }
    }

    /// Takes a test on as far as the settled part goes; false if it fails.
    fn advance(&mut self, tables: &Tables<'_>, p: &Settled, test: usize) -> bool {
        let mut at = usize::from(self.at[test]);
        let mut state = match self.wait[test] {
            i if i == tables.site[WAKING] => target(p.steps[usize::from(i)]),
            _ => usize::from(self.state[test]),
        };
        let mut wait = THROUGH;
        while tables.log[at] != RESET {
            let (x, o) = parts(tables.log[at]);
            match tables.step(p, state * 16 + x) {
                Step::Waits(i) => {
                    wait = i as u8;
                    break;
                }
                Step::Takes(step, _) => {
                    if output(step) != o {
                        return false;
                    }
                    state = target(step);
                    at += 1;
                }
            }
        }
        self.at[test] = at as u16;
        self.state[test] = state as u8;
        self.wait[test] = wait;
        true
    }

    /// Takes the tests that waited for the last suspect on, or all; the first that fails.
    pub fn advance_all(
        &mut self,
        tables: &Tables<'_>,
        p: &Settled,
        last: Option<usize>,
    ) -> Option<usize> {
        let last = last.map_or(FRESH, |i| i as u8);
        (0..tables.tests()).find(|&test| self.wait[test] == last && !self.advance(tables, p, test))
    }

    /// Marks the choices that waiting tests refute; how many tests wait for each suspect.
    pub fn mark(&self, tables: &Tables<'_>, marks: &mut Marks) -> [u32; 32] {
        let mut waiting = [0; 32];
        for test in 0..tables.tests() {
            let i = usize::from(self.wait[test]);
            if i >= 32 {
                continue;
            }
            waiting[i] += 1;
            if tables.site[WAKING] == self.wait[test] {
                continue;
            }
            let (_, wanted) = parts(tables.log[usize::from(self.at[test])]);
            for o in (0..tables.outputs).filter(|&o| o != wanted) {
                marks.mark(i, o, tables.free[i * 16 + o], FROM_TEST + test as u16);
            }
        }
        waiting
    }
}

/// The suspect with the fewest choices left for each test that waits for it.
pub fn pick(tables: &Tables<'_>, marks: &Marks, waiting: &[u32; 32]) -> Option<usize> {
    let mut best = None;
    let (mut least, mut most) = (1, 0);
    for i in (0..tables.suspects).filter(|&i| waiting[i] > 0) {
        let choices = marks.alive(tables, i);
        if choices * most < least * waiting[i] {
            best = Some(i);
            (least, most) = (choices, waiting[i]);
        }
    }
    best
}
