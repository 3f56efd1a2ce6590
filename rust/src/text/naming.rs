//! The names that a text gives, and operands by name.

use super::mistakes::Mistake;
use crate::Names;
use crate::names::{Named, number};

/// A line that names all states, presses or sounds.
pub struct Naming<'a> {
    pub line: usize,
    pub kind: Named,
    pub names: Vec<&'a str>,
}

impl<'a> Naming<'a> {
    /// What a line gives names to, if its first word says so.
    pub fn of(line: usize, word: &str, names: &[&'a str]) -> Option<Self> {
        let kind = Named::ALL
            .into_iter()
            .find(|kind| kind.word().eq_ignore_ascii_case(word))?;
        let names = names.to_vec();
        Some(Naming { line, kind, names })
    }

    /// What is wrong with it, after others, if the sheet has such sizes.
    fn mistake(&self, before: &[Naming], sizes: Option<&[u8; 3]>) -> Option<String> {
        let word = self.kind.word();
        if let Some(first) = before.iter().find(|other| other.kind == self.kind) {
            return Some(format!("{word} stands twice, first in line {}", first.line));
        }
        let twice = |(i, name): (usize, &&'a str)| self.names[..i].contains(name).then_some(*name);
        if let Some(name) = self.names.iter().enumerate().find_map(twice) {
            return Some(format!("{word} has {name} twice"));
        }
        let (given, size) = (self.names.len(), usize::from(sizes?[self.kind as usize]));
        (given != size).then(|| format!("{word} has {given} names, and SIZE {size}"))
    }
}

/// The names that lines give.
pub fn collect(namings: &[Naming], sizes: Option<&[u8; 3]>) -> (Names, Vec<Mistake>) {
    let (mut names, mut mistakes) = (Names::default(), Vec::new());
    for (i, naming) in namings.iter().enumerate() {
        match naming.mistake(&namings[..i], sizes) {
            Some(what) => mistakes.push(Mistake::new(naming.line, what)),
            None => {
                *names.of_mut(naming.kind) =
                    naming.names.iter().map(|name| name.to_string()).collect()
            }
        }
    }
    (names, mistakes)
}

/// The lines that give names.
pub fn lines(names: &Names) -> Vec<String> {
    let given = Named::ALL
        .into_iter()
        .filter(|&kind| !names.of(kind).is_empty());
    given
        .map(|kind| format!("{} {}", kind.word(), names.of(kind).join(" ")))
        .collect()
}

/// The number that a word stands for as an operand of a command, or what is wrong with it.
pub fn value(names: &Names, what: &str, word: &str) -> Result<u8, String> {
    match Named::of_operand(what) {
        Some(kind) => names.value(kind, word),
        None => number(word),
    }
}

/// The word for a value of an operand; none if a name that is a number would be taken for another.
pub fn spelled(names: &Names, operand: &str, value: u8) -> Option<String> {
    let Some(kind) = Named::of_operand(operand) else {
        return Some(value.to_string());
    };
    let word = names.called(kind, value);
    let number = names.number(kind, &word);
    number.is_none_or(|number| number == value).then_some(word)
}
