//! Cubes around a settled part, as wide as they can be had. What they are worth is checked.

use super::cubes::{
    has, literal, members, output, target, Cube, Settled, States, Step, Suspects, ANY,
};
use super::tables::{parts, Tables, WAKING};

/// A suspect as a set, empty for none.
fn bit(site: u8) -> Suspects {
    1u32.checked_shl(site.into()).unwrap_or(0)
}

/// Pairs of states: by the specification's, those of mutants.
pub type Pairs = [States; 16];

/// The pairs of states that are met, those that were taken of them, and the rows that have more.
struct Walk {
    met: Pairs,
    taken: Pairs,
    rows: States,
}

impl Walk {
    fn new(starts: States) -> Self {
        let mut walk = Walk {
            met: [0; 16],
            taken: [0; 16],
            rows: 0,
        };
        walk.add(0, starts);
        walk
    }

    fn add(&mut self, a: usize, set: States) {
        self.met[a] |= set;
        self.rows |= 1 << a;
    }

    fn next(&mut self) -> Option<(usize, usize)> {
        while self.rows != 0 {
            let a = self.rows.trailing_zeros() as usize;
            let new = self.met[a] & !self.taken[a];
            if new != 0 {
                let b = new.trailing_zeros() as usize;
                self.taken[a] |= 1 << b;
                return Some((a, b));
            }
            self.rows &= self.rows - 1;
        }
        None
    }
}

impl Tables<'_> {
    /// The pairs of states met under a cube, and the suspects there; none if an output can be
    /// wrong.
    pub fn spread(&self, cube: &Cube) -> Option<(Pairs, Suspects)> {
        let mut walk = Walk::new(self.starts(cube));
        let mut used = bit(self.site[WAKING]);
        while let Some((a, b)) = walk.next() {
            for x in 0..self.inputs {
                let Some((o, next)) = self.rule(a * 16 + x) else {
                    continue;
                };
                if !self.right(cube, b, x, o) {
                    return None;
                }
                used |= bit(self.site[b * 16 + x]);
                walk.add(next, self.leads(cube, b, x, o));
            }
        }
        Some((walk.met, used))
    }

    /// The most pairs of states that are closed under a cube without a wrong output.
    fn safe_pairs(&self, cube: &Cube) -> Pairs {
        let mut safe = [States::MAX; 16];
        let mut changed = true;
        while changed {
            changed = false;
            for a in 0..self.states {
                for b in 0..self.states {
                    if has(safe[a], b) && !self.pair_closed(cube, &safe, a, b) {
                        safe[a] &= !(1 << b);
                        changed = true;
                    }
                }
            }
        }
        safe
    }

    /// Walks the pairs of states met under a cube, and narrows it where they would leave the
    /// safe ones; none if it was narrowed.
    fn narrow(&self, safe: &Pairs, cube: &mut Cube) -> Option<Pairs> {
        let (all, go) = (self.starts(cube), self.starts(cube) & safe[0]);
        let mut same = go == all;
        if !same {
            cube[usize::from(self.site[WAKING])] = literal(0, go);
        }
        let mut walk = Walk::new(go);
        while let Some((a, b)) = walk.next() {
            for x in 0..self.inputs {
                let Some((o, next)) = self.rule(a * 16 + x) else {
                    continue;
                };
                let all = self.leads(cube, b, x, o);
                let go = all & safe[next];
                if go != all || !self.right(cube, b, x, o) {
                    cube[usize::from(self.site[b * 16 + x])] = literal(o, go);
                    same = false;
                }
                walk.add(next, go);
            }
        }
        same.then_some(walk.met)
    }

    /// A wide cube around one whose mutants conform, of which all conform, and the pairs of
    /// states that show it.
    pub fn conforming(&self, base: &Cube) -> (Cube, Pairs) {
        let safe = self.safe_pairs(base);
        let mut cube = [ANY; 32];
        loop {
            if let Some(pairs) = self.narrow(&safe, &mut cube) {
                return (cube, pairs);
            }
        }
    }

    /// The suspects that a test meets up to its wrong output.
    pub fn met(&self, p: &Settled, test: usize) -> Suspects {
        let Step::Takes(woken, mut used) = self.step(p, WAKING) else {
            return 0;
        };
        let mut state = target(woken);
        for &observation in self.observations(test) {
            let (x, o) = parts(observation);
            let Step::Takes(step, by) = self.step(p, state * 16 + x) else {
                break;
            };
            used |= by;
            if output(step) != o {
                break;
            }
            state = target(step);
        }
        used
    }

    /// By place of a test: the states from which every mutant of the cube fails it.
    fn doomed(&self, cube: &Cube, observations: &[u16]) -> [States; 257] {
        let mut bad = [0; 257];
        for (l, &observation) in observations.iter().enumerate().rev() {
            let (x, o) = parts(observation);
            let after = bad[l + 1];
            for s in 0..self.states {
                if self.leads(cube, s, x, o) & !after == 0 {
                    bad[l] |= 1 << s;
                }
            }
        }
        bad
    }

    /// The suspects that are met in some states on an input.
    fn met_in(&self, set: States, x: usize) -> Suspects {
        members(set).fold(0, |met, s| met | bit(self.site[s * 16 + x]))
    }

    /// A wide cube around a settled part that fails a test, of which all fail it. It speaks of
    /// suspects that the settled part meets there.
    pub fn failing(&self, p: &Settled, test: usize) -> Cube {
        let used = self.met(p, test);
        let observations = self.observations(test);
        let bad = self.doomed(&p.cube(used), observations);
        let mut cube = [ANY; 32];
        let mut first = [usize::MAX; 32];
        let mut sets = [0; 257];
        if let Some(waking) = cube.get_mut(usize::from(self.site[WAKING])) {
            *waking = literal(0, self.starts(&[ANY; 32]) & bad[0]);
        }
        sets[0] = self.starts(&cube);
        let mut l = 0;
        while l < observations.len() && sets[l] != 0 {
            let (x, o) = parts(observations[l]);
            let mut again = l;
            for i in members(self.met_in(sets[l], x) & used) {
                first[i] = first[i].min(l);
                if self.narrow_step(p.steps[i], &mut cube, i, o, bad[l + 1]) {
                    again = again.min(first[i]);
                }
            }
            if again < l {
                l = again;
            } else {
                l += 1;
                sets[l] = self.onward(&cube, sets[l - 1], x, o);
            }
        }
        cube
    }

    /// Narrows the cube at a suspect where it would leave the bad states.
    fn narrow_step(&self, step: u8, cube: &mut Cube, i: usize, o: usize, bad: States) -> bool {
        let go = self.going(cube[i], i, o);
        if go & !bad == 0 {
            return false;
        }
        cube[i] = match output(step) {
            given if given == o => literal(o, go & bad),
            given => literal(given, self.free[i * 16 + given]),
        };
        true
    }
}
