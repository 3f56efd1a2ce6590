//! A word's arguments.

use super::failure::Failure;
use super::input::is_piped;
use super::near::near;
use super::table::Word;
use super::words::{JSON, OUTPUT};
use ranthelo::{Named, Names};
use std::collections::BTreeMap;
use std::ffi::{OsStr, OsString};
use std::num::IntErrorKind;

/// What follows a word: options, with or without a value, and the rest in order.
pub struct Arguments {
    word: &'static Word,
    options: BTreeMap<&'static str, OsString>,
    rest: Vec<OsString>,
}

/// A whole number that an argument may be.
pub trait Whole: std::str::FromStr<Err = std::num::ParseIntError> + std::fmt::Display {
    const MOST: Self;
}

impl Whole for u8 {
    const MOST: Self = u8::MAX;
}
impl Whole for u32 {
    const MOST: Self = u32::MAX;
}
impl Whole for usize {
    const MOST: Self = usize::MAX;
}

impl Arguments {
    /// Takes the arguments of a word: those that it has, and options that it knows.
    pub fn parse(word: &'static Word, arguments: &[OsString]) -> Result<Self, Failure> {
        let (options, rest) = (BTreeMap::new(), Vec::new());
        let mut parsed = Arguments {
            word,
            options,
            rest,
        };
        let mut arguments = arguments.iter();
        while let Some(argument) = arguments.next() {
            match argument.to_str() {
                Some("--") => parsed.rest.extend(arguments.by_ref().cloned()),
                Some(name) if name.len() > 1 && name.starts_with('-') => {
                    parsed.take_option(name, &mut arguments)?;
                }
                _ => parsed.rest.push(argument.clone()),
            }
        }
        parsed.check()?;
        Ok(parsed)
    }

    /// `--name`, `--name value` or `--name=value`.
    fn take_option<'a>(
        &mut self,
        argument: &str,
        rest: &mut impl Iterator<Item = &'a OsString>,
    ) -> Result<(), Failure> {
        let (name, inline) = match argument.split_once('=') {
            Some((name, value)) => (name, Some(OsString::from(value))),
            None => (argument, None),
        };
        let option = self.word.options.iter().find(|option| option.name == name);
        let Some(option) = option else {
            let known = self.word.options.iter().map(|option| option.name);
            let meant = near(name, known).map_or(String::new(), |near| format!("; {near} is near"));
            return Err(self.wrong(format!("has no option {name}{meant}")));
        };
        let value = match (option.value, inline) {
            (None, None) => OsString::new(),
            (None, Some(_)) => return Err(self.wrong(format!("{name} takes no value"))),
            (Some(_), Some(value)) => value,
            (Some(what), None) => match rest.next() {
                Some(value) => value.clone(),
                None => return Err(self.wrong(format!("{name} takes a value: {what}"))),
            },
        };
        if self.options.insert(option.name, value).is_some() {
            return Err(self.wrong(format!("{name} is given twice")));
        }
        Ok(())
    }

    /// As many arguments as the word takes, the last of them from a pipe if it is not named; and the options that it
    /// needs.
    fn check(&mut self) -> Result<(), Failure> {
        let takes = &self.word.takes;
        let (given, due) = (self.rest.len(), takes.names.len());
        let several =
            takes.several || takes.gathers && (self.has(JSON.name) || self.has(OUTPUT.name));
        let enough = given == due || several && given > due;
        if !enough && takes.piped && given + 1 == due && is_piped() {
            self.rest.push("-".into());
        } else if !enough && given < takes.least || given > due && !several {
            let (shown, options) = (takes.shown(), !self.word.options.is_empty());
            let takes = match (shown.is_empty(), options) {
                (true, _) => "nothing",
                (false, true) => &format!("{shown} and options"),
                (false, false) => &shown,
            };
            return Err(self.wrong(format!("takes {takes}, {given} given")));
        }
        let missing = self.word.needs.iter().find(|option| !self.has(option.name));
        match missing {
            Some(option) => Err(self.wrong(format!("needs {}", option.name))),
            None => Ok(()),
        }
    }

    /// A failure that names the word.
    pub fn wrong(&self, what: impl std::fmt::Display) -> Failure {
        let name = self.word.name;
        Failure::usage(format!("{name} {what}; see ranthelo help {name}"))
    }

    /// Whether the word knows an option.
    pub fn knows(&self, option: &str) -> bool {
        self.word.options.iter().any(|known| known.name == option)
    }

    pub fn has(&self, option: &str) -> bool {
        self.options.contains_key(option)
    }

    pub fn value(&self, option: &str) -> Option<&OsStr> {
        self.options.get(option).map(OsString::as_os_str)
    }

    /// All arguments but the options.
    pub fn all(&self) -> &[OsString] {
        &self.rest
    }

    pub fn argument(&self, index: usize) -> &OsStr {
        &self.rest[index]
    }

    /// An argument that is a number.
    pub fn number<T: Whole>(&self, index: usize) -> Result<T, Failure> {
        self.parsed(self.word.takes.names[index], self.argument(index))
    }

    /// An option's value that is a number, if the option is given.
    pub fn option_number<T: Whole>(&self, option: &str) -> Result<Option<T>, Failure> {
        let value = self.value(option);
        value.map(|value| self.parsed(option, value)).transpose()
    }

    fn parsed<T: Whole>(&self, name: &str, text: &OsStr) -> Result<T, Failure> {
        let text = text.to_string_lossy();
        text.parse::<T>().map_err(|error| match error.kind() {
            IntErrorKind::PosOverflow | IntErrorKind::NegOverflow => {
                self.wrong(format!("takes 0 to {} as {name}, not {text}", T::MOST))
            }
            _ => self.wrong(format!("takes a number as {name}, not {text}")),
        })
    }

    /// The list of numbers or names that an option has, `0 1 0` or `0,1,0`; empty if it is not given.
    pub fn list(
        &self,
        option: &str,
        kind: Option<Named>,
        names: &Names,
    ) -> Result<Vec<u8>, Failure> {
        let text = self.value(option).unwrap_or_default().to_string_lossy();
        let numbers = text.split([' ', ',']).filter(|number| !number.is_empty());
        let number = |word: &str| {
            value(word, kind, names).map_err(|what| self.wrong(format!("{option}: {what}")))
        };
        numbers.map(number).collect()
    }
}

/// The number that a word of a list stands for; a board's choices have no names.
fn value(word: &str, kind: Option<Named>, names: &Names) -> Result<u8, String> {
    match kind {
        Some(kind) => names.value(kind, word),
        None => Names::default().value(Named::State, word),
    }
}
