//! The words of the command, their arguments, input and output.

mod answer;
mod arguments;
mod completion;
mod failure;
mod input;
mod json;
mod making;
mod manual;
mod near;
mod output;
mod state;
mod table;
mod words;
mod work;

use arguments::Arguments;
use failure::Failure;
use near::near;
use std::ffi::{OsStr, OsString};
use std::process::ExitCode;
use table::{Does, Word};
use words::WORDS;

/// How the command ends, other than by a failure.
#[derive(Clone, Copy, PartialEq, Eq, PartialOrd, Ord)]
pub enum Status {
    /// Complete, conforms, passes; or simply done.
    Good = 0,
    /// A survivor, a departing board, a failed test.
    Wanting = 1,
    /// The library refused.
    Refused = 2,
    /// Bad usage, unreadable input, a failed write.
    Failed = 3,
}

impl From<Status> for ExitCode {
    fn from(status: Status) -> ExitCode {
        ExitCode::from(status as u8)
    }
}

/// What the command is for.
const PURPOSE: &str =
    "ranthelo judges whether a list of tests for a finite state machine is complete.";

/// What its arguments are.
const USAGE: &str = "\
SHEET is a file, or - for standard input: the bytes of a sheet, or its text form. Without it a sheet that comes by a
pipe is taken. SHEET.. is one or several; with several each answer begins with a line that names the file, and the
greatest status of all ends the command. Words of one file take several with --json; words that write take several into
the folder that -o names, under each file's own name.";

/// How it ends.
const STATUS: &str = "\
Status: 0 complete, conforms, passes, or done; 1 a survivor, a departing board, a failed test; 2 refused by the library;
3 bad usage, unreadable input, a failed write. Failures and refusals are told on standard error.";

/// Does what the arguments ask for.
pub fn perform(arguments: Vec<OsString>) -> Result<Status, Failure> {
    let Some((first, rest)) = arguments.split_first() else {
        return Err(Failure::usage("a word is missing; see ranthelo help"));
    };
    let told = match first.to_str() {
        Some("--help" | "-h") => Some(overview()),
        Some("--version" | "-V") => Some(format!("ranthelo {}\n", env!("CARGO_PKG_VERSION"))),
        _ => None,
    };
    if let Some(told) = told {
        return output::print(told.as_bytes()).map(|()| Status::Good);
    }
    let word = find(first)?;
    if rest
        .iter()
        .any(|argument| argument == "--help" || argument == "-h")
    {
        return output::print(word.help().as_bytes()).map(|()| Status::Good);
    }
    let arguments = Arguments::parse(word, rest)?;
    let done = match word.does {
        Does::Answers(answer) => answer::on_sheets(&arguments, answer),
        Does::Writes(make) => output::on_files(&arguments, make),
        Does::Performs(perform) => perform(&arguments),
    };
    Ok(done.unwrap_or_else(|failure| failure.settle(&arguments)))
}

/// The word of a name.
fn find(name: &OsStr) -> Result<&'static Word, Failure> {
    let name = name.to_string_lossy();
    let word = WORDS.iter().find(|word| word.name == name);
    word.ok_or_else(|| {
        let near = near(&name, WORDS.iter().map(|word| word.name));
        let meant = near.map_or(String::new(), |near| format!("; {near} is near"));
        Failure::usage(format!(
            "{name} is no word of ranthelo{meant}; see ranthelo help"
        ))
    })
}

/// The list of all words.
fn overview() -> String {
    let words = WORDS
        .iter()
        .map(|word| format!("  {:<14}{}\n", word.name, word.purpose));
    let words = words.collect::<String>();
    format!(
        "{PURPOSE}\n\nUsage: ranthelo WORD [OPTIONS] SHEET..\n\n{USAGE}\n\n{words}\n{STATUS}\n\n\
         ranthelo help WORD says more of a word.\n"
    )
}
