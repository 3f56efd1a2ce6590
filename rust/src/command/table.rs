//! What a word of the command is: all that its usage, help, completion and page of the manual are made from.

use super::Status;
use super::answer::Answer;
use super::arguments::Arguments;
use super::failure::Failure;
use super::input::Input;
use super::output::Written;
use std::ffi::OsStr;

/// An option, with the name of its value if it takes one.
pub struct Choice {
    pub name: &'static str,
    pub value: Option<&'static str>,
    pub does: &'static str,
}

impl Choice {
    /// `--board LIST`
    pub fn shown(&self) -> String {
        match self.value {
            Some(value) => format!("{} {value}", self.name),
            None => self.name.to_string(),
        }
    }
}

/// What a word takes besides options.
pub struct Takes {
    pub names: &'static [&'static str],
    /// So many at least.
    pub least: usize,
    /// The last may be followed by more of its kind.
    pub several: bool,
    /// So it may with `--json`, or where `-o` names a folder for what is written.
    pub gathers: bool,
    /// The last may come from a pipe.
    pub piped: bool,
}

impl Takes {
    /// Exactly these.
    pub const fn these(names: &'static [&'static str]) -> Self {
        Takes {
            names,
            least: names.len(),
            several: false,
            gathers: false,
            piped: false,
        }
    }

    /// These, the last of them from a pipe if it is not named.
    pub const fn piped(names: &'static [&'static str]) -> Self {
        let these = Takes::these(names);
        Takes {
            piped: true,
            ..these
        }
    }

    /// The last of them once or more.
    pub const fn several(self) -> Self {
        Takes {
            several: true,
            ..self
        }
    }

    /// The last of them once; with `--json`, or into a folder, more often.
    pub const fn gathering(self) -> Self {
        Takes {
            gathers: true,
            ..self
        }
    }

    /// `FIRST SECOND`, `SHEET..` or `[WORD]`
    pub fn shown(&self) -> String {
        let optional = |i: usize, name: &&str| match i < self.least {
            true => name.to_string(),
            false => format!("[{name}]"),
        };
        let names: Vec<String> = self
            .names
            .iter()
            .enumerate()
            .map(|(i, name)| optional(i, name))
            .collect();
        names.join(" ") + if self.several { ".." } else { "" }
    }
}

/// How a word does what it does.
pub enum Does {
    /// It answers on each of its sheets.
    Answers(fn(&Arguments, &Input) -> Result<Answer, Failure>),
    /// It writes something of each of its files.
    Writes(fn(&Arguments, &OsStr) -> Result<Written, Failure>),
    /// It reads and writes by itself.
    Performs(fn(&Arguments) -> Result<Status, Failure>),
}

pub struct Word {
    pub name: &'static str,
    /// In a few words, for the list of all.
    pub purpose: &'static str,
    pub takes: Takes,
    pub options: &'static [&'static Choice],
    /// The options without which it can't be.
    pub needs: &'static [&'static Choice],
    /// What it does, answers and ends with.
    pub details: &'static str,
    pub does: Does,
}

impl Word {
    /// `ranthelo judge [OPTIONS] SHEET..`
    pub fn usage(&self) -> String {
        let options = if self.options.is_empty() {
            ""
        } else {
            " [OPTIONS]"
        };
        let usage = format!("ranthelo {}{options} {}", self.name, self.takes.shown());
        usage.trim_end().to_string()
    }

    /// What `help` prints.
    pub fn help(&self) -> String {
        let (name, purpose, details) = (self.name, self.purpose, self.details);
        let lines = self.options.iter().map(|option| {
            let needed = self.needs.iter().any(|needed| needed.name == option.name);
            let needed = if needed { " (needed)" } else { "" };
            format!("  {:<18}{}{needed}\n", option.shown(), option.does)
        });
        let options = lines.collect::<String>();
        let options = if options.is_empty() {
            options
        } else {
            format!("\n{options}")
        };
        format!(
            "ranthelo {name}: {purpose}\n\nUsage: {}\n\n{details}\n{options}",
            self.usage()
        )
    }
}
