//! Answers to standard output; sheets, lines and pictures to a file, a folder or standard output; a word on standard
//! error.

use super::Status;
use super::answer::json_line;
use super::arguments::Arguments;
use super::failure::Failure;
use super::json::{Fields, bytes};
use super::words::{JSON, OUTPUT, QUIET, TEXT};
use ranthelo::Names;
use std::collections::BTreeMap;
use std::ffi::{OsStr, OsString};
use std::fs;
use std::io::{self, IsTerminal, Write};
use std::path::{Path, PathBuf};

/// Writes to standard output.
pub fn print(bytes: &[u8]) -> Result<(), Failure> {
    let mut output = io::stdout().lock();
    let written = output.write_all(bytes).and_then(|()| output.flush());
    written.map_err(|error| Failure::unwritten("standard output", error))
}

/// Says a line on standard error. If that fails, the status is left.
pub fn tell(what: &str) {
    let line = format!("ranthelo: {}\n", what.replace('\n', " "));
    let _ = io::stderr().write_all(line.as_bytes());
}

/// What a word makes of a file.
pub struct Written {
    /// What the file is called.
    pub name: String,
    /// The names that its text gives.
    pub names: Names,
    pub content: Content,
    /// What JSON says of it.
    pub fields: Fields,
    pub status: Status,
    /// What is said on standard error after it, unless it is to be done quietly.
    pub note: Option<String>,
    /// What is wrong with it: it is written all the same.
    pub failure: Option<Failure>,
}

/// What is written.
pub enum Content {
    /// A sheet, and its text form.
    Sheet { bytes: Vec<u8>, text: String },
    /// Lines or a picture, with the extension of such a file's name.
    Lines {
        text: String,
        extension: &'static str,
    },
}

impl Written {
    /// Something that is good.
    pub fn new(name: &str, names: &Names, content: Content, fields: Fields) -> Self {
        Written {
            name: name.to_string(),
            names: names.clone(),
            content,
            fields,
            status: Status::Good,
            note: None,
            failure: None,
        }
    }

    /// Writes it: bytes, or text or JSON if that is asked for. Bytes do not go to a terminal.
    pub fn deliver(self, arguments: &Arguments, goal: &Goal) -> Result<Status, Failure> {
        let extension = match &self.content {
            _ if arguments.has(JSON.name) => "json",
            Content::Lines { extension, .. } => extension,
            Content::Sheet { .. } if arguments.has(TEXT.name) => "txt",
            Content::Sheet { .. } => "sheet",
        };
        if extension == "sheet" && goal.is_terminal() {
            let told = "the bytes of a sheet do not go to a terminal: give -o FILE, or --text";
            return Err(Failure::usage(told));
        }
        let content = match self.content {
            Content::Lines { text, .. } if extension != "json" => text.into_bytes(),
            Content::Sheet { text, .. } if extension == "txt" => text.into_bytes(),
            Content::Sheet { bytes, .. } if extension == "sheet" => bytes,
            content => {
                let mut fields = self.fields;
                if let Content::Sheet { bytes: sheet, text } = content {
                    fields.extend([("sheet", bytes(&sheet)), ("text", text.into())]);
                }
                json_line(&self.name, &self.names, fields).into_bytes()
            }
        };
        goal.write(extension, &content)?;
        if let Some(note) = self.note.filter(|_| !arguments.has(QUIET.name)) {
            tell(&note);
        }
        Ok(match self.failure {
            None => self.status,
            Some(failure) => {
                failure.tell();
                failure.status()
            }
        })
    }
}

/// Where something is written.
pub enum Goal {
    Output,
    File(PathBuf),
    /// A file in a folder, by its name without extension; none of the files that were taken.
    Inside {
        folder: PathBuf,
        stem: OsString,
        taken: Vec<PathBuf>,
    },
}

impl Goal {
    /// Where what is made of some files goes: to standard output, to the file that the option names, or into the folder
    /// that it names, under each file's own name. Several go to a folder, or as JSON to standard output.
    pub fn of(arguments: &Arguments, files: &[OsString]) -> Result<Vec<Self>, Failure> {
        let named = arguments.value(OUTPUT.name).filter(|&path| path != "-");
        match named.map(Path::new) {
            Some(folder) if folder.is_dir() => inside(arguments, folder, files),
            Some(file) if files.len() > 1 => Err(arguments.wrong(format!(
                "puts what it makes of several files into a folder, and {} is none",
                file.display()
            ))),
            None if files.len() > 1 && !arguments.has(JSON.name) => Err(arguments.wrong(
                "puts what it makes of several files into a folder: give -o FOLDER, or --json",
            )),
            Some(file) => Ok(vec![Goal::File(file.to_path_buf())]),
            None => Ok(files.iter().map(|_| Goal::Output).collect()),
        }
    }

    fn is_terminal(&self) -> bool {
        matches!(self, Goal::Output) && io::stdout().is_terminal()
    }

    fn write(&self, extension: &str, content: &[u8]) -> Result<(), Failure> {
        let path = match self {
            Goal::Output => return print(content),
            Goal::File(path) => path.clone(),
            Goal::Inside {
                folder,
                stem,
                taken,
            } => {
                let mut name = stem.clone();
                name.push(format!(".{extension}"));
                let path = folder.join(name);
                if fs::canonicalize(&path).is_ok_and(|path| taken.contains(&path)) {
                    let what = "it is one of the files that were taken, and is not written over";
                    return Err(Failure::unusable(&path.to_string_lossy(), what));
                }
                path
            }
        };
        fs::write(&path, content)
            .map_err(|error| Failure::unwritten(&path.to_string_lossy(), error))
    }
}

/// A place in a folder for what is made of each file; no two of them the same.
fn inside<'a>(
    arguments: &Arguments,
    folder: &Path,
    files: &'a [OsString],
) -> Result<Vec<Goal>, Failure> {
    let taken = arguments.all().iter();
    let taken: Vec<PathBuf> = taken
        .filter_map(|file| fs::canonicalize(file).ok())
        .collect();
    let mut stems: BTreeMap<&OsStr, &OsStr> = BTreeMap::new();
    let goal = |file: &'a OsStr| {
        let stem = Path::new(file).file_stem().filter(|_| file != "-");
        let stem = stem.ok_or_else(|| {
            let what = format!("{} has no name to have in a folder", file.to_string_lossy());
            arguments.wrong(what)
        })?;
        if let Some(other) = stems.insert(stem, file) {
            let [one, two] = [other, file].map(OsStr::to_string_lossy);
            return Err(arguments.wrong(format!("would give {one} and {two} one name")));
        }
        Ok(Goal::Inside {
            folder: folder.to_path_buf(),
            stem: stem.to_os_string(),
            taken: taken.clone(),
        })
    };
    files.iter().map(OsString::as_os_str).map(goal).collect()
}

/// Writes what a word makes of each of its files. What fails on one is told, and the others are written all the same.
pub fn on_files(
    arguments: &Arguments,
    make: fn(&Arguments, &OsStr) -> Result<Written, Failure>,
) -> Result<Status, Failure> {
    let files = arguments.all();
    let mut status = Status::Good;
    for (path, goal) in files.iter().zip(Goal::of(arguments, files)?) {
        let written = make(arguments, path).and_then(|made| made.deliver(arguments, &goal));
        status = status.max(written.unwrap_or_else(|failure| failure.settle(arguments)));
    }
    Ok(status)
}

/// Writes one thing that a word makes, in a folder under the name of this file.
pub fn deliver(arguments: &Arguments, file: &OsStr, written: Written) -> Result<Status, Failure> {
    let goals = Goal::of(arguments, &[file.to_os_string()])?;
    let write = |written: Written, goal| written.deliver(arguments, goal);
    goals
        .first()
        .map_or(Ok(Status::Good), |goal| write(written, goal))
}
