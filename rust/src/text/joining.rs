//! A text with more lines, and all else as it stands.

use super::lines::Text;
use super::order::{self, Key, LAST, REST};
use super::{command_lines, disassemble_named};
use crate::commands::{PRESS, commands};

impl Text {
    /// The text with the lines of some commands: FAULTs and STARTs after the line that they follow in order, all else
    /// at the end. Comments and everything else of the source stay. If the lines so joined would spell other bytes than
    /// `whole`, that is spelled anew.
    ///
    /// ```
    /// use ranthelo::text::{Text, assemble};
    ///
    /// let source = b"SIZE 1 1 1 # small\nTEST # nothing yet";
    /// let whole = assemble(b"SIZE 1 1 1\nTEST\nTEST").unwrap();
    /// let text = Text::read(source).unwrap();
    /// assert_eq!(text.joined(source, &[4], &whole), "SIZE 1 1 1 # small\nTEST # nothing yet\nTEST\n");
    /// ```
    #[must_use]
    pub fn joined(&self, source: &[u8], more: &[u8], whole: &[u8]) -> String {
        let joined = self.join(&String::from_utf8_lossy(source), more);
        match Text::read(joined.as_bytes()) {
            Ok(text) if text.bytes() == whole => joined,
            _ => disassemble_named(whole, self.names()),
        }
    }

    fn join(&self, source: &str, more: &[u8]) -> String {
        let ending = if source.contains("\r\n") {
            "\r\n"
        } else {
            "\n"
        };
        let mut added: Vec<(usize, String)> = self.rows(more);
        added.sort_by_key(|(after, _)| *after);
        let mut added = added.into_iter().peekable();
        let mut joined = String::new();
        for (i, line) in source.split_inclusive('\n').enumerate() {
            while let Some((_, row)) = added.next_if(|(after, _)| *after <= i) {
                joined += &format!("{row}{ending}");
            }
            joined += line;
        }
        if !joined.is_empty() && !joined.ends_with('\n') {
            joined += ending;
        }
        added.fold(joined, |joined, (_, row)| joined + &row + ending)
    }

    /// The lines of some commands, each with the number of the line that it follows.
    fn rows(&self, more: &[u8]) -> Vec<(usize, String)> {
        let keys: Vec<Key> = rows_of(more).iter().map(|row| order::key(row)).collect();
        let words = command_lines(more, self.names());
        keys.iter()
            .zip(words)
            .map(|(key, row)| (self.place(key), row))
            .collect()
    }

    /// The number of the line after which a row with this key belongs.
    fn place(&self, key: &Key) -> usize {
        let keyed = |line: &super::lines::Line| match order::is_end(&line.bytes) {
            true => (LAST, Vec::new()),
            false => order::key(&line.bytes),
        };
        if key.0 == REST {
            let end = self.lines.last().filter(|line| order::is_end(&line.bytes));
            return end.map_or(usize::MAX, |line| line.number - 1);
        }
        let before = self.lines.iter().filter(|line| keyed(line) <= *key);
        before.map(|line| line.number).max().unwrap_or(0)
    }
}

/// The commands with presses joined to their tests.
fn rows_of(bytes: &[u8]) -> Vec<Vec<u8>> {
    let mut rows: Vec<Vec<u8>> = Vec::new();
    for command in commands(bytes) {
        match rows.last_mut() {
            Some(test) if command.byte() == PRESS => test.extend(command.bytes),
            _ => rows.push(command.bytes.to_vec()),
        }
    }
    rows
}
