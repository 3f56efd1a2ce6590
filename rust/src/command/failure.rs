//! What keeps the command from an answer: told on standard error, in a line, or a line for each mistake of a text.

use super::Status;
use super::arguments::Arguments;
use super::json::{Fields, Json, list};
use super::output;
use super::words::JSON;
use ranthelo::text::{Mistake, Mistakes};
use std::io;

/// So many mistakes of a text are told.
const MOST: usize = 20;

/// Lines for standard error, the status that goes with them, and the same as JSON with the file that it is about.
pub struct Failure {
    status: Status,
    file: Option<String>,
    told: Vec<String>,
    fields: Fields,
}

impl Failure {
    pub fn usage(told: impl Into<String>) -> Self {
        let told = told.into();
        let fields = vec![("answer", "failed".into()), ("why", told.clone().into())];
        Failure {
            status: Status::Failed,
            file: None,
            told: vec![told],
            fields,
        }
    }

    /// A file that can't be read or written, or something in it that can't be used.
    pub fn unusable(name: &str, what: impl std::fmt::Display) -> Self {
        let what = what.to_string();
        let mut failure = Failure::usage(format!("{name}: {what}"));
        failure.file = Some(name.to_string());
        failure.fields[1].1 = what.into();
        failure
    }

    /// A failed write. To a pipe that nobody reads any more nothing is said.
    pub fn unwritten(name: &str, error: io::Error) -> Self {
        let mut failure = Failure::unusable(name, &error);
        if error.kind() == io::ErrorKind::BrokenPipe {
            failure.told.clear();
        }
        failure
    }

    /// The mistakes of a text.
    pub fn mistaken(name: &str, mistakes: &Mistakes) -> Self {
        let mut told: Vec<String> = mistakes
            .iter()
            .take(MOST)
            .map(|mistake| format!("{name}: {mistake}"))
            .collect();
        if let more @ 1.. = mistakes.len().saturating_sub(MOST) {
            told.push(format!("{name}: {more} more mistakes"));
        }
        let field = |mistake: &Mistake| {
            let fields: Fields = vec![
                ("line", mistake.line.into()),
                ("what", mistake.what.clone().into()),
            ];
            Json::from(fields)
        };
        let fields = vec![
            ("answer", "mistakes".into()),
            ("mistakes", list(mistakes.iter().map(field))),
        ];
        Failure {
            status: Status::Failed,
            file: Some(name.to_string()),
            told,
            fields,
        }
    }

    /// A refusal by the library: its figures, and why.
    pub fn refused(name: &str, refusal: ranthelo::Refusal, line: Option<usize>, why: &str) -> Self {
        let ranthelo::Refusal { number, place } = refusal;
        let shown = line.map_or(String::new(), |line| format!(" (line {line})"));
        let told = vec![format!("{name}: refused {number} at {place}{shown}: {why}")];
        let mut fields = refused_fields(refusal);
        fields.extend(line.map(|line| ("line", line.into())));
        fields.push(("why", why.into()));
        Failure {
            status: Status::Refused,
            file: Some(name.to_string()),
            told,
            fields,
        }
    }

    pub fn status(&self) -> Status {
        self.status
    }

    /// What is said of it as JSON.
    pub fn fields(&self) -> Fields {
        self.fields.clone()
    }

    /// All of it on one line.
    pub fn said(&self) -> String {
        self.told.join("; ")
    }

    pub fn tell(&self) {
        for line in &self.told {
            output::tell(line);
        }
    }

    /// Tells it, as an object too if that is asked for, and leaves the status. So it does where even that can't be
    /// written.
    pub fn settle(&self, arguments: &Arguments) -> Status {
        if arguments.has(JSON.name) {
            let file = self.file.as_deref().map(|file| ("file", file.into()));
            let fields: Fields = file.into_iter().chain(self.fields()).collect();
            let _ = output::print(format!("{}\n", Json::from(fields)).as_bytes());
        }
        self.tell();
        self.status
    }
}

/// A refusal as JSON.
fn refused_fields(refusal: ranthelo::Refusal) -> Fields {
    vec![
        ("answer", "refused".into()),
        ("number", refusal.number.into()),
        ("place", refusal.place.into()),
    ]
}
