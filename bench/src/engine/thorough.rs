//! The thorough attempt: a cube without survivor that has a settled part, by a test, by a cube
//! found before, by the pairs of states, or by every choice of a suspect.

use super::cubes::{has, literal_next, means, meet, output, target, Cube, Settled, ANY};
use super::cursors::{pick, Cursors};
use super::marks::{Marks, FROM_TEST};
use super::notes::{Notes, Prefix};
use super::search::Attempt;
use super::store::{Live, Store};
use super::tables::Tables;

pub struct Thorough<'a> {
    tables: &'a Tables<'a>,
    notes: &'a mut Notes,
    store: &'a mut Store,
    marks: &'a mut Marks,
}

/// What a node hands on to those below: how far the tests have come, which entries agree, and
/// the suspect that is settled next.
#[derive(Clone)]
struct Path {
    cursors: Cursors,
    live: Live,
    last: Option<usize>,
}

impl<'a> Thorough<'a> {
    pub fn new(
        tables: &'a Tables<'a>,
        notes: &'a mut Notes,
        store: &'a mut Store,
        marks: &'a mut Marks,
    ) -> Self {
        Thorough {
            tables,
            notes,
            store,
            marks,
        }
    }

    fn by_test(&self, p: &Settled, test: usize) -> Option<Cube> {
        let cube = self.tables.failing(p, test);
        self.tables.fails(&cube, test).then_some(cube)
    }

    /// All conform, whatever the unsettled suspects do.
    fn by_pairs(&self, p: &Settled) -> Option<Cube> {
        let base = p.cube(p.set);
        self.tables.spread(&base)?;
        let (cube, pairs) = self.tables.conforming(&base);
        self.tables.closed(&cube, &pairs).then_some(cube)
    }

    /// By the test or the entry that a hint names.
    fn by_hint(&mut self, p: &Settled, hint: u16) -> Option<Cube> {
        match hint.checked_sub(FROM_TEST) {
            Some(test) => self.by_test(p, test.into()),
            None => self.store.serve(hint.into(), p),
        }
    }

    fn look(&mut self, p: &Settled, path: &mut Path) -> Option<Cube> {
        let failed = path.cursors.advance_all(self.tables, p, path.last);
        let cube = match failed {
            Some(test) => self.by_test(p, test)?,
            None => {
                self.marks.dead = [0; 512];
                let known = self.store.scan(p, path.last, &mut path.live, self.marks);
                if known.is_some() {
                    return known;
                }
                self.by_pairs(p)?
            }
        };
        self.store.learn(&cube);
        Some(cube)
    }

    /// The suspect to settle next: one that tests wait for, or one on the walk.
    fn next(&mut self, p: &Settled, cursors: &Cursors) -> Option<usize> {
        let waiting = cursors.mark(self.tables, self.marks);
        let waited_for = pick(self.tables, self.marks, &waiting);
        waited_for.or_else(|| self.notes.meet(self.tables, p))
    }

    fn refute(&mut self, p: &Settled, from: &Path) -> Option<Cube> {
        self.notes.nodes += 1;
        let mut path = from.clone();
        if let Some(cube) = self.look(p, &mut path) {
            return Some(cube);
        }
        let i = self.next(p, &path.cursors)?;
        path.last = Some(i);
        self.branch(p, i, &path)
    }

    /// What the cubes of all choices of a suspect have in common; one of them, if it does not
    /// speak of the suspect. First come the choices of which nothing is known.
    fn branch(&mut self, p: &Settled, i: usize, path: &Path) -> Option<Cube> {
        let dead: [u16; 16] = self.marks.dead[i * 16..][..16].try_into().ok()?;
        let hints: [u16; 256] = self.marks.hints[i * 256..][..256].try_into().ok()?;
        let mut all = [ANY; 32];
        let mut done = [0; 16];
        let mut q = *p;
        for second in [false, true] {
            for c in 0..self.tables.counts[i] {
                let step = self.tables.choice(i, c);
                let (o, next) = (output(step), target(step));
                if has(done[o], next) || !second && has(dead[o], next) {
                    continue;
                }
                q.settle(i, step);
                let hint = second.then_some(hints[usize::from(step)]);
                let known = hint.and_then(|hint| self.by_hint(&q, hint));
                let cube = known.or_else(|| self.refute(&q, path))?;
                if cube[i] == ANY {
                    return Some(cube);
                }
                if !means(cube[i], step) {
                    return None;
                }
                done[o] |= literal_next(cube[i]) | self.tables.mirrored(&cube, i, next);
                meet(&mut all, &cube);
            }
        }
        all[i] = ANY;
        self.store.learn(&all);
        Some(all)
    }
}

impl Attempt for Thorough<'_> {
    fn tables(&self) -> &Tables<'_> {
        self.tables
    }

    fn notes(&self) -> &Notes {
        self.notes
    }

    fn gives_up(&self) -> bool {
        false
    }

    fn refutes(&mut self, prefix: &Prefix) -> bool {
        let p = self.tables.settled(prefix);
        let path = Path {
            cursors: Cursors::new(self.tables, &p),
            live: Live::NONE,
            last: None,
        };
        let cube = self.refute(&p, &path);
        cube.is_some_and(|cube| (0..32).all(|j| p.has(j, cube[j])))
    }
}
