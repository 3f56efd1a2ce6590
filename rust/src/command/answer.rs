//! What a word answers on a file, and how it is printed.

use super::Status;
use super::arguments::Arguments;
use super::failure::Failure;
use super::input::{Input, called};
use super::json::{Fields, Json, list};
use super::output::print;
use super::words::{JSON, QUIET};
use ranthelo::{Named, Names};
use std::ffi::{OsStr, OsString};

/// An answer in lines and as JSON.
pub struct Answer {
    pub status: Status,
    pub lines: String,
    pub fields: Fields,
    /// What is told on standard error after it.
    pub failure: Option<Failure>,
}

impl Answer {
    pub fn new(status: Status, lines: String, fields: Fields) -> Self {
        let failure = None;
        Answer {
            status,
            lines,
            fields,
            failure,
        }
    }

    /// Says more in words.
    pub fn explain(&mut self, told: String) {
        self.lines += &format!("\n{told}");
        self.fields.push(("explained", told.into()));
    }
}

/// Answers on each of some files. With several a line before each answer names the file; what fails on one is told, and
/// the others are answered all the same. The greatest status of all.
pub fn on_each(
    arguments: &Arguments,
    files: &[OsString],
    answer: impl Fn(&OsStr) -> Result<Status, Failure>,
) -> Result<Status, Failure> {
    let names_files = files.len() > 1 && !arguments.has(JSON.name) && !arguments.has(QUIET.name);
    let mut status = Status::Good;
    for path in files {
        if names_files {
            print(format!("file {}\n", called(path)).as_bytes())?;
        }
        let answered = answer(path).unwrap_or_else(|failure| failure.settle(arguments));
        status = status.max(answered);
    }
    Ok(status)
}

/// Answers on each of the sheets.
pub fn on_sheets(
    arguments: &Arguments,
    answer: fn(&Arguments, &Input) -> Result<Answer, Failure>,
) -> Result<Status, Failure> {
    on_each(arguments, arguments.all(), |path| {
        let input = Input::open(path, arguments)?;
        let Answer {
            status,
            lines,
            fields,
            failure,
        } = answer(arguments, &input)?;
        print_answer(arguments, &input, &lines, fields)?;
        if let Some(failure) = &failure {
            failure.tell();
        }
        Ok(status)
    })
}

/// Prints the answer on one sheet: its lines, or an object if that is asked for, or nothing.
pub fn print_answer(
    arguments: &Arguments,
    input: &Input,
    lines: &str,
    fields: Fields,
) -> Result<(), Failure> {
    match arguments {
        arguments if arguments.has(JSON.name) => {
            print(json_line(&input.name, &input.names, fields).as_bytes())
        }
        arguments if arguments.has(QUIET.name) => Ok(()),
        _ => print(lines.as_bytes()),
    }
}

/// An object on a line of its own: the file, the answer, and the names that its text gives.
pub fn json_line(file: &str, names: &Names, fields: Fields) -> String {
    let mut all: Fields = vec![("file", file.into())];
    all.extend(fields);
    if !names.is_empty() {
        let given = |kind: Named| list(names.of(kind).iter().map(String::as_str));
        let [states, presses, sounds] = Named::ALL.map(given);
        let names: Fields = vec![("states", states), ("presses", presses), ("sounds", sounds)];
        all.push(("names", names.into()));
    }
    format!("{}\n", Json::from(all))
}
