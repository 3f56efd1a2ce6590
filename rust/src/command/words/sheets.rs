//! `read`, `assemble`, `write` and `generate`.

use super::boards::{presses, shown};
use super::{TEST as TEST_OPTION, fields};
use crate::command::Status;
use crate::command::answer::Answer;
use crate::command::arguments::Arguments;
use crate::command::failure::Failure;
use crate::command::input::Input;
use crate::command::json::{Fields, bytes};
use crate::command::output::{Content, Written, deliver};
use ranthelo::asked::Asked;
use ranthelo::commands::{Command, END, FAULT, PRESS, QUIET, RULE, SIZE, START, TEST, commands};
use ranthelo::text::{disassemble, disassemble_named, words};
use ranthelo::{Names, Summary, Tables};
use std::ffi::OsStr;

pub fn read(arguments: &Arguments, input: &Input) -> Result<Answer, Failure> {
    if let Some(test) = arguments.option_number(TEST_OPTION.name)? {
        return read_test(arguments, input, test);
    }
    let summary = ranthelo::read(&input.sheet).map_err(|r| input.refused(r, &Asked::Sheet))?;
    let Summary {
        states,
        presses,
        sounds,
        rules,
        faults,
        tests,
        open_pairs,
    } = summary;
    let fields: Fields = vec![
        ("answer", "accepted".into()),
        ("states", states.into()),
        ("presses", presses.into()),
        ("sounds", sounds.into()),
        ("rules", rules.into()),
        ("faults", faults.into()),
        ("tests", tests.into()),
        ("open_pairs", open_pairs.into()),
    ];
    Ok(Answer::new(Status::Good, format!("{summary}\n"), fields))
}

/// Where a test's PRESS commands stand, and its presses.
fn read_test(arguments: &Arguments, input: &Input, test: usize) -> Result<Answer, Failure> {
    let span = ranthelo::test_span(&input.sheet, test);
    let span = span.map_err(|r| input.refused(r, &Asked::Test(test)))?;
    let (start, length, names) = (span.start, span.len(), shown(arguments, input));
    let presses = presses(&input.sheet[span]);
    let called = presses.iter().map(|&press| names.press(press));
    let lines = format!("at {start}, {length} bytes\n{}", fields("press", called));
    let answer = ("answer", "test".into());
    let fields = vec![
        answer,
        ("start", start.into()),
        ("length", length.into()),
        ("press", bytes(&presses)),
    ];
    Ok(Answer::new(Status::Good, lines, fields))
}

pub fn assemble(arguments: &Arguments, path: &OsStr) -> Result<Written, Failure> {
    let input = Input::open(path, arguments)?;
    let refusal = ranthelo::read(&input.sheet)
        .err()
        .map(|r| input.refused(r, &Asked::Sheet));
    let fields = refusal
        .as_ref()
        .map_or(vec![("answer", "written".into())], Failure::fields);
    Ok(Written {
        failure: refusal,
        ..written(&input, input.sheet.clone(), fields)
    })
}

/// A sheet that comes from another.
fn written(input: &Input, sheet: Vec<u8>, fields: Fields) -> Written {
    let text = disassemble_named(&sheet, &input.names);
    let content = Content::Sheet { bytes: sheet, text };
    Written::new(&input.name, &input.names, content, fields)
}

pub fn write(arguments: &Arguments, path: &OsStr) -> Result<Written, Failure> {
    let input = Input::open(path, arguments)?;
    let tables = Owned::of(&input.sheet).map_err(|what| Failure::unusable(&input.name, what))?;
    let sheet = ranthelo::write(tables.lend());
    let sheet = sheet.map_err(|refusal| input.refused(refusal, &Asked::Tables))?;
    Ok(written(&input, sheet, vec![("answer", "written".into())]))
}

/// The tables that commands spell, in whatever order the kinds stand.
#[derive(Default)]
struct Owned {
    size: Option<[u8; 3]>,
    quiet: bool,
    rules: Vec<u8>,
    faults: Vec<u8>,
    starts: Vec<u8>,
    lengths: Vec<u16>,
    presses: Vec<u8>,
}

impl Owned {
    fn of(sheet: &[u8]) -> Result<Self, String> {
        let mut tables = Owned::default();
        for command in commands(sheet) {
            let last = command.end() == sheet.len();
            if command.byte() == END && last {
                break;
            }
            tables.take(command).ok_or_else(|| {
                let (words, place) = (words(command), command.place);
                format!("no table has {words}, at {place}")
            })?;
        }
        Ok(tables)
    }

    /// Puts a command into its table, if it has one.
    fn take(&mut self, command: Command) -> Option<()> {
        match (command.byte(), command.operands()) {
            (SIZE, &[n, k, m]) if self.size.is_none() => self.size = Some([n, k, m]),
            (QUIET, _) if !self.quiet => self.quiet = true,
            (RULE, row @ [_, _, _, _]) => self.rules.extend(row),
            (FAULT, row @ [_, _, _, _]) => self.faults.extend(row),
            (START, &[t]) => self.starts.push(t),
            (TEST, _) => self.lengths.push(0),
            (PRESS, &[x]) => {
                let length = self.lengths.last_mut()?;
                *length = length.checked_add(1)?;
                self.presses.push(x);
            }
            _ => return None,
        }
        Some(())
    }

    fn lend(&self) -> Tables<'_> {
        Tables {
            size: self.size.unwrap_or_default(),
            quiet: self.quiet,
            rules: &self.rules,
            faults: &self.faults,
            starts: &self.starts,
            lengths: &self.lengths,
            presses: &self.presses,
        }
    }
}

pub fn generate(arguments: &Arguments) -> Result<Status, Failure> {
    let seed = arguments.number(0)?;
    let size = [
        arguments.number(1)?,
        arguments.number(2)?,
        arguments.number(3)?,
    ];
    let refused = |refusal: ranthelo::Refusal| {
        let [n, k, m] = size;
        let why = format!("{n} states, {k} presses and {m} sounds: each is 1 to 16");
        Failure::refused("generate", refusal, None, &why)
    };
    let sheet = ranthelo::generate(seed, size).map_err(refused)?;
    let text = disassemble(&sheet);
    let content = Content::Sheet { bytes: sheet, text };
    let fields = vec![("answer", "written".into())];
    let written = Written::new("generate", &Names::default(), content, fields);
    deliver(arguments, OsStr::new("generate"), written)
}
