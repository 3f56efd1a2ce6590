//! Sheets from files and standard input, in either form.

use super::arguments::Arguments;
use super::failure::Failure;
use super::words::SORT;
use ranthelo::asked::{Asked, why};
use ranthelo::text::{self, Text};
use ranthelo::{Names, Refusal, RefusalKind};
use std::ffi::OsStr;
use std::fs::File;
use std::io::{self, IsTerminal, Read};

/// More than any sheet's text needs, with comments.
const MOST: u64 = 1 << 20;

/// A sheet with the name of where it comes from.
pub struct Input {
    pub name: String,
    /// Its bytes.
    pub sheet: Vec<u8>,
    /// The names that its text gives.
    pub names: Names,
    /// The text that spells them, if it came as a text.
    spelled: Option<Spelled>,
    /// Whether the option that puts rows in order could be given and is not.
    may_sort: bool,
}

struct Spelled {
    source: Vec<u8>,
    text: Text,
}

impl Input {
    /// Reads the sheet in a file, or in standard input if the name is `-`.
    pub fn open(path: &OsStr, arguments: &Arguments) -> Result<Self, Failure> {
        let (name, content) = open(path, MOST)?;
        let sorts = arguments.has(SORT.name);
        let may_sort = !sorts && arguments.knows(SORT.name);
        if !text::is_text(&content) {
            let sheet = if sorts {
                text::sorted(&content)
            } else {
                content
            };
            let (names, spelled) = (Names::default(), None);
            return Ok(Input {
                name,
                sheet,
                names,
                spelled,
                may_sort,
            });
        }
        if content.len() as u64 > MOST {
            return Err(Failure::unusable(
                &name,
                "the text has over 1,048,576 bytes",
            ));
        }
        let text = Text::read(&content).map_err(|mistakes| Failure::mistaken(&name, &mistakes))?;
        let text = if sorts { text.sorted() } else { text };
        let (sheet, names) = (text.bytes(), text.names().clone());
        let spelled = Some(Spelled {
            source: content,
            text,
        });
        Ok(Input {
            name,
            sheet,
            names,
            spelled,
            may_sort,
        })
    }

    /// The failure that tells a refusal of an operation that took the sheet and more.
    pub fn refused(&self, refusal: Refusal, asked: &Asked) -> Failure {
        let of_reading = ranthelo::read(&self.sheet) == Err(refusal);
        let text = self.spelled.as_ref().filter(|_| of_reading);
        let line = text.and_then(|spelled| spelled.text.line_at(refusal.place));
        let mut reason = why(&self.sheet, asked, refusal, &self.names);
        if of_reading && self.sorting_helps(refusal) {
            reason += &format!("; {} puts RULEs, FAULTs and STARTs in order", SORT.name);
        }
        Failure::refused(&self.name, refusal, line, &reason)
    }

    /// Whether a command that is refused at its point would not be in order.
    fn sorting_helps(&self, refusal: Refusal) -> bool {
        let misplaced = [RefusalKind::Misplaced, RefusalKind::Order].contains(&refusal.kind());
        let still = || ranthelo::read(&text::sorted(&self.sheet)).map_err(|other| other.number);
        self.may_sort && misplaced && still() != Err(refusal.number)
    }

    /// The text form of a sheet that this one was made into by putting in some commands: the text as it came with their
    /// lines, or, if there is none, all spelled anew.
    pub fn text_with(&self, more: &[u8], whole: &[u8]) -> String {
        match &self.spelled {
            Some(Spelled { source, text }) => text.joined(source, more, whole),
            None => text::disassemble(whole),
        }
    }
}

/// What a source is called in answers.
pub fn called(path: &OsStr) -> String {
    match path == "-" {
        true => "standard input".to_string(),
        false => path.to_string_lossy().into_owned(),
    }
}

/// The name of a source and its bytes, or so many and one more of them.
pub fn open(path: &OsStr, most: u64) -> Result<(String, Vec<u8>), Failure> {
    let (name, bytes) = match path == "-" {
        true => (called(path), read(io::stdin(), most)),
        false => (
            called(path),
            File::open(path).and_then(|file| read(file, most)),
        ),
    };
    let content = bytes.map_err(|error| Failure::unusable(&name, error))?;
    Ok((name, content))
}

fn read(source: impl Read, most: u64) -> io::Result<Vec<u8>> {
    let mut bytes = Vec::new();
    source
        .take(most.saturating_add(1))
        .read_to_end(&mut bytes)?;
    Ok(bytes)
}

/// Whether standard input comes from a pipe or a file.
pub fn is_piped() -> bool {
    !io::stdin().is_terminal() && leads_somewhere()
}

#[cfg(unix)]
fn leads_somewhere() -> bool {
    use std::os::fd::AsFd;
    use std::os::unix::fs::FileTypeExt;
    let file = io::stdin().as_fd().try_clone_to_owned().map(File::from);
    let kind = file
        .and_then(|file| file.metadata())
        .map(|data| data.file_type());
    kind.is_ok_and(|kind| kind.is_fifo() || kind.is_socket() || kind.is_file())
}

#[cfg(not(unix))]
fn leads_somewhere() -> bool {
    true
}
