//! Cubes without survivor found before.

use super::cubes::{literal_next, literal_output, means, members, Cube, Settled, Suspects, ANY};
use super::marks::Marks;

/// How many are kept.
const ENTRIES: usize = 512;

/// By entry: the cube, the suspects that it speaks of, and how often it was of use lately.
pub struct Store {
    cubes: [Cube; ENTRIES],
    sets: [Suspects; ENTRIES],
    ages: [u8; ENTRIES],
    /// The entries written, the latest last; how many in all.
    written: [u16; ENTRIES],
    learnt: usize,
    hand: usize,
}

/// The entries that agree with a settled part, of those that were learnt up to some time.
#[derive(Clone)]
pub struct Live {
    set: [u64; ENTRIES / 64],
    learnt: usize,
}

impl Live {
    pub const NONE: Live = Live {
        set: [0; ENTRIES / 64],
        learnt: 0,
    };

    fn put(&mut self, e: usize, agrees: bool) {
        let bit = 1 << (e % 64);
        self.set[e / 64] &= !bit;
        self.set[e / 64] |= if agrees { bit } else { 0 };
    }
}

impl Store {
    pub fn new() -> Self {
        Store {
            cubes: [[0; 32]; ENTRIES],
            sets: [0; ENTRIES],
            ages: [0; ENTRIES],
            written: [0; ENTRIES],
            learnt: 0,
            hand: 0,
        }
    }

    /// The entry to write: a free one, else the next that was of no use lately.
    fn place(&mut self) -> usize {
        if self.learnt < ENTRIES {
            return self.learnt;
        }
        while self.ages[self.hand] > 0 {
            self.ages[self.hand] -= 1;
            self.hand = (self.hand + 1) % ENTRIES;
        }
        let e = self.hand;
        self.hand = (self.hand + 1) % ENTRIES;
        e
    }

    pub fn learn(&mut self, cube: &Cube) {
        let e = self.place();
        self.cubes[e] = *cube;
        self.sets[e] = (0..32).filter(|&j| cube[j] != ANY).map(|j| 1 << j).sum();
        self.ages[e] = 0;
        self.written[self.learnt % ENTRIES] = e as u16;
        self.learnt += 1;
    }

    /// An entry that is of use.
    fn take(&mut self, e: usize) -> Cube {
        self.ages[e] = (self.ages[e] + 1).min(3);
        self.cubes[e]
    }

    /// The entry, if it has the settled part.
    pub fn serve(&mut self, e: usize, p: &Settled) -> Option<Cube> {
        let serves = self.sets[e] & !p.set == 0 && self.agrees(e, p);
        serves.then(|| self.take(e))
    }

    /// Whether the settled part has all that the entry says of its suspects.
    fn agrees(&self, e: usize, p: &Settled) -> bool {
        members(self.sets[e] & p.set).all(|j| means(self.cubes[e][j], p.steps[j]))
    }

    /// Puts in or out the entries that were learnt meanwhile.
    fn catch_up(&self, p: &Settled, live: &mut Live) {
        if self.learnt - live.learnt > ENTRIES {
            for e in 0..ENTRIES {
                live.put(e, self.agrees(e, p));
            }
        } else {
            for t in live.learnt..self.learnt {
                let e = usize::from(self.written[t % ENTRIES]);
                live.put(e, self.agrees(e, p));
            }
        }
        live.learnt = self.learnt;
    }

    /// An entry that has the settled part, in which suspect `last` was settled last; `live` are
    /// those that agreed before. Of entries that lack one suspect only, marks what they mean
    /// there.
    pub fn scan(
        &mut self,
        p: &Settled,
        last: Option<usize>,
        live: &mut Live,
        marks: &mut Marks,
    ) -> Option<Cube> {
        self.catch_up(p, live);
        for word in 0..live.set.len() {
            for bit in members(live.set[word]) {
                let e = word * 64 + bit;
                if last.is_some_and(|i| !means(self.cubes[e][i], p.steps[i])) {
                    live.set[word] &= !(1 << bit);
                    continue;
                }
                let open = self.sets[e] & !p.set;
                if open == 0 {
                    return Some(self.take(e));
                }
                if open & (open - 1) == 0 {
                    let j = open.trailing_zeros() as usize;
                    let l = self.cubes[e][j];
                    marks.mark(j, literal_output(l), literal_next(l), e as u16);
                }
            }
        }
        None
    }
}
