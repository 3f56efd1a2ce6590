//! Answers as the command prints them.

use crate::score::Walked;
use crate::{
    Comparison, Failure, Made, Names, Passing, Recorded, Run, Step, Summary, Trial, Verdict,
};
use std::fmt::{self, Display, Formatter};

/// A name and what follows it, with one blank between: `board 0 1`.
pub(crate) fn fields<T: Display>(name: &str, list: impl IntoIterator<Item = T>) -> String {
    let fields = list.into_iter().map(|field| format!(" {field}"));
    name.to_string() + &fields.collect::<String>()
}

impl Names {
    /// `press 0 1`
    pub(crate) fn presses(&self, presses: &[u8]) -> String {
        fields("press", presses.iter().map(|&press| self.press(press)))
    }
}

/// `states 2`, and so on, each on a line.
impl Display for Summary {
    fn fmt(&self, f: &mut Formatter) -> fmt::Result {
        let Summary {
            states,
            presses,
            sounds,
            rules,
            faults,
            tests,
            open_pairs,
        } = self;
        write!(
            f,
            "states {states}\npresses {presses}\nsounds {sounds}\nrules {rules}\nfaults {faults}\ntests {tests}\n\
             open pairs {open_pairs}"
        )
    }
}

impl Run {
    /// `sound 1 1 0` and `used 0`, in the words of names.
    #[must_use]
    pub fn named(&self, names: &Names) -> String {
        let sounds = fields("sound", self.sounds.iter().map(|&sound| names.sound(sound)));
        format!("{sounds}\n{}", fields("used", self.used.pairs()))
    }
}

/// `sound 1 1 0` and `used 0`
impl Display for Run {
    fn fmt(&self, f: &mut Formatter) -> fmt::Result {
        f.write_str(&self.named(&Names::default()))
    }
}

/// `passes` and `used 0`; or `fails`, `test 0`, `position 2` and `used 0`
impl Display for Trial {
    fn fmt(&self, f: &mut Formatter) -> fmt::Result {
        match self.failure {
            None => writeln!(f, "passes")?,
            Some(Failure { test, position }) => {
                writeln!(f, "fails\ntest {test}\nposition {position}")?
            }
        }
        f.write_str(&fields("used", self.used.pairs()))
    }
}

impl Comparison {
    /// `conforms`, or `departs` and `press 0 1 0`, in the words of names.
    #[must_use]
    pub fn named(&self, names: &Names) -> String {
        match self {
            Comparison::Conforms => "conforms".to_string(),
            Comparison::Departs { sequence } => format!("departs\n{}", names.presses(sequence)),
        }
    }
}

/// `conforms`, or `departs` and `press 0 1 0`
impl Display for Comparison {
    fn fmt(&self, f: &mut Formatter) -> fmt::Result {
        f.write_str(&self.named(&Names::default()))
    }
}

impl Verdict {
    /// `complete`, or `survivor`, `board 1` and `press 0 1 0`, in the words of names.
    #[must_use]
    pub fn named(&self, names: &Names) -> String {
        match self {
            Verdict::Complete => "complete".to_string(),
            Verdict::Survivor { board, sequence } => {
                format!(
                    "survivor\n{}\n{}",
                    fields("board", board),
                    names.presses(sequence)
                )
            }
        }
    }
}

/// `1 test appended`
impl Display for Made {
    fn fmt(&self, f: &mut Formatter) -> fmt::Result {
        let tests = if self.appended == 1 { "test" } else { "tests" };
        write!(f, "{} {tests} appended", self.appended)
    }
}

/// `passing 2`, `conforming 1` and `departing 1`, each on a line.
impl Display for Walked {
    fn fmt(&self, f: &mut Formatter) -> fmt::Result {
        let (
            passing,
            Walked {
                conforming,
                departing,
            },
        ) = (self.passing(), self);
        write!(
            f,
            "passing {passing}\nconforming {conforming}\ndeparting {departing}"
        )
    }
}

/// `differs 4` or `as specified`; `given by a board` or `given by no board`
impl Display for Recorded {
    fn fmt(&self, f: &mut Formatter) -> fmt::Result {
        match self.differs {
            Some(place) => writeln!(f, "differs {place}")?,
            None => writeln!(f, "as specified")?,
        }
        let whose = if self.given { "a" } else { "no" };
        write!(f, "given by {whose} board")
    }
}

/// `board 0 1 conforms`, or `board 0 2 departs 0 1 0`
impl Display for Passing {
    fn fmt(&self, f: &mut Formatter) -> fmt::Result {
        f.write_str(&self.named(&Names::default()))
    }
}

impl Passing {
    /// `board 0 1 conforms`, or `board 0 2 departs 0 1 0`, in the words of names.
    #[must_use]
    pub fn named(&self, names: &Names) -> String {
        let board = fields("board", &self.board);
        let told = match &self.comparison {
            Comparison::Conforms => "conforms".to_string(),
            Comparison::Departs { sequence } => {
                fields("departs", sequence.iter().map(|&press| names.press(press)))
            }
        };
        format!("{board} {told}")
    }
}

/// `pulse`, `press 0`, `pass`, or `fails test 0 position 1`
impl Display for Step {
    fn fmt(&self, f: &mut Formatter) -> fmt::Result {
        match self {
            Step::Pulse { .. } => f.write_str("pulse"),
            Step::Press { press, .. } => write!(f, "press {press}"),
            Step::Pass => f.write_str("pass"),
            Step::Failure(failure) => write!(f, "{failure}"),
        }
    }
}

/// `fails test 0 position 1`
impl Display for Failure {
    fn fmt(&self, f: &mut Formatter) -> fmt::Result {
        write!(f, "fails test {} position {}", self.test, self.position)
    }
}

/// `complete`, or `survivor`, `board 1` and `press 0 1 0`
impl Display for Verdict {
    fn fmt(&self, f: &mut Formatter) -> fmt::Result {
        f.write_str(&self.named(&Names::default()))
    }
}
