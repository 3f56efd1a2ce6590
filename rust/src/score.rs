//! How many boards a sheet has, and how many of those that depart its list finds.

use crate::machine::Machine;
use std::fmt;

/// A number of any size, in groups of nine digits, the lowest first.
#[derive(Clone, Debug, PartialEq, Eq)]
pub struct Count(Vec<u64>);

const GROUP: u64 = 1_000_000_000;

impl Count {
    fn times(self, factor: u64) -> Self {
        let mut carry = 0;
        let step = |digits: u64| {
            let product = digits * factor + carry;
            carry = product / GROUP;
            product % GROUP
        };
        let mut groups: Vec<u64> = self.0.into_iter().map(step).collect();
        if carry > 0 {
            groups.push(carry);
        }
        Count(groups)
    }

    /// So many fewer; 0 if there are not so many.
    #[must_use]
    pub fn less(self, number: u64) -> Self {
        let (mut left, mut groups) = (number, self.0);
        let mut borrow = 0;
        for digits in &mut groups {
            let take = left % GROUP + borrow;
            left /= GROUP;
            borrow = u64::from(*digits < take);
            *digits = *digits + borrow * GROUP - take;
        }
        if left + borrow > 0 {
            return Count(vec![0]);
        }
        while groups.len() > 1 && groups.last() == Some(&0) {
            groups.pop();
        }
        Count(groups)
    }
}

impl fmt::Display for Count {
    fn fmt(&self, f: &mut fmt::Formatter) -> fmt::Result {
        let (last, rest) = self.0.split_last().expect("a group");
        write!(f, "{last}")?;
        rest.iter()
            .rev()
            .try_for_each(|group| write!(f, "{group:09}"))
    }
}

/// How many boards a machine has: the product of its open pairs' choices.
///
/// ```
/// use ranthelo::{machine::Machine, score, text::assemble};
///
/// let sheet = assemble(b"SIZE 2 1 2\n RULE 0 0 0 1\n")?;
/// assert_eq!(score::boards(&Machine::of(&sheet)?).to_string(), "4");
/// # Ok::<(), Box<dyn std::error::Error>>(())
/// ```
#[must_use]
pub fn boards(machine: &Machine) -> Count {
    let pairs = machine.open_pairs();
    pairs.iter().fold(Count(vec![1]), |count, pair| {
        count.times(pair.choices.len() as u64)
    })
}

/// What a whole walk over the boards that pass comes to.
///
/// ```
/// use ranthelo::{machine::Machine, score::Walked, text::assemble};
///
/// let sheet = assemble(b"SIZE 1 1 3\n RULE 0 0 0 0\n FAULT 0 0 1 0\n FAULT 0 0 2 0")?;
/// let walked = Walked { conforming: 1, departing: 1 };
/// assert_eq!(walked.to_string(), "passing 2\nconforming 1\ndeparting 1");
/// let (found, all) = walked.score(&Machine::of(&sheet)?);
/// assert_eq!((found.to_string(), all.to_string()), ("1".to_string(), "2".to_string()));
/// # Ok::<(), Box<dyn std::error::Error>>(())
/// ```
#[derive(Clone, Copy, Debug, Default, PartialEq, Eq)]
pub struct Walked {
    /// How many conform.
    pub conforming: u64,
    /// How many depart: the list does not find them.
    pub departing: u64,
}

impl Walked {
    /// How many pass.
    #[must_use]
    pub fn passing(&self) -> u64 {
        self.conforming.saturating_add(self.departing)
    }

    /// The mutation score: of the departing boards those that fail the list, and how many depart. A conforming board
    /// fails no list, so the walk has met all of them.
    #[must_use]
    pub fn score(&self, machine: &Machine) -> (Count, Count) {
        let all = boards(machine);
        (all.clone().less(self.passing()), all.less(self.conforming))
    }
}
