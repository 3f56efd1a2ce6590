//! `list` and `draw`.

use super::boards::board;
use super::{BOARD, MEALY, SVG, TABLE, TEXT, UNSPECIFIED};
use crate::command::Status;
use crate::command::answer::Answer;
use crate::command::arguments::Arguments;
use crate::command::failure::Failure;
use crate::command::input::Input;
use crate::command::json::{Fields, Json, bytes, list as json_list};
use crate::command::output::{Content, Written};
use ranthelo::asked::Asked;
use ranthelo::commands::{Command, commands};
use ranthelo::draw::{Line, Picture, Transition, Waking};
use ranthelo::machine::{Choice, Machine, OpenPair, Origin, Site};
use ranthelo::{draw as pictures, list as listing, text};
use std::ffi::OsStr;

pub fn list(arguments: &Arguments, input: &Input) -> Result<Answer, Failure> {
    let sheet = &input.sheet;
    let lines = match arguments.has(TEXT.name) {
        true => text::disassemble_named(sheet, &input.names),
        false => listing::named(sheet, &input.names),
    };
    let listed = json_list(commands(sheet).map(command));
    Ok(match Machine::of(sheet) {
        Ok(machine) => {
            let pairs = json_list(machine.open_pairs().iter().map(open_pair));
            let fields = vec![
                ("answer", "accepted".into()),
                ("commands", listed),
                ("open_pairs", pairs),
            ];
            Answer::new(Status::Good, lines, fields)
        }
        Err(refusal) => {
            let failure = input.refused(refusal, &Asked::Sheet);
            let mut answer = Answer::new(Status::Refused, lines, failure.fields());
            answer.fields.push(("commands", listed));
            answer.failure = Some(failure);
            answer
        }
    })
}

/// A command as JSON.
fn command(command: Command) -> Json {
    let fields: Fields = vec![
        ("place", command.place.into()),
        ("bytes", bytes(command.bytes)),
        ("words", text::words(command).into()),
    ];
    fields.into()
}

/// An open pair as JSON.
fn open_pair(pair: &OpenPair) -> Json {
    let mut fields: Fields = match pair.site {
        Site::Waking => vec![("waking", true.into())],
        Site::Pair((state, press)) => vec![("state", state.into()), ("press", press.into())],
    };
    fields.push(("choices", json_list(pair.choices.iter().map(choice))));
    fields.into()
}

fn choice(choice: &Choice) -> Json {
    let origin = match choice.origin {
        Origin::Rule => "rule",
        Origin::Fault => "fault",
        Origin::Unspecified => "unspecified",
        Origin::Waking => "waking",
    };
    let mut fields: Fields = vec![("origin", origin.into()), ("next", choice.to.next.into())];
    if choice.origin != Origin::Waking {
        fields.push(("sound", choice.to.sound.into()));
    }
    fields.into()
}

pub fn draw(arguments: &Arguments, path: &OsStr) -> Result<Written, Failure> {
    let form = form(arguments)?;
    let unspecified = arguments.has(UNSPECIFIED.name) || form == Some(TABLE.name);
    let board = board(arguments)?;
    let input = Input::open(path, arguments)?;
    let (sheet, names) = (&input.sheet, &input.names);
    let picture = match arguments.has(BOARD.name) {
        true => pictures::board(sheet, &board, names, unspecified),
        false => Machine::of(sheet).map(|m| pictures::machine(&m, names, unspecified)),
    };
    let picture = picture.map_err(|r| input.refused(r, &Asked::Board(&board)))?;
    let (text, extension) = match form {
        Some("--svg") => (pictures::svg(&picture), "svg"),
        Some("--table") => (pictures::table(&picture), "txt"),
        Some("--mealy") => (pictures::mealy(&picture), "dot"),
        _ => (pictures::dot(&picture), "dot"),
    };
    let mut fields = drawn(&picture);
    fields.push(("picture", text.as_str().into()));
    let content = Content::Lines { text, extension };
    Ok(Written::new(&input.name, names, content, fields))
}

/// What a picture shows, as JSON.
fn drawn(picture: &Picture) -> Fields {
    let mut fields: Fields = vec![("answer", "drawn".into())];
    if !picture.title.is_empty() {
        fields.push(("title", picture.title.as_str().into()));
    }
    fields.extend([
        ("states", picture.states.into()),
        ("presses", picture.presses.into()),
        ("sounds", picture.sounds.into()),
        ("wakings", json_list(picture.wakings.iter().map(waking))),
        (
            "transitions",
            json_list(picture.transitions.iter().map(transition)),
        ),
    ]);
    fields
}

fn waking(waking: &Waking) -> Json {
    let fields: Fields = vec![
        ("state", waking.state.into()),
        ("line", line(waking.line).into()),
        ("marked", waking.marked.into()),
    ];
    fields.into()
}

/// A transition as JSON: without sound and next state where any may come.
fn transition(one: &Transition) -> Json {
    let mut fields: Fields = vec![("state", one.state.into()), ("press", one.press.into())];
    if let Some(to) = one.to {
        fields.extend([("sound", to.sound.into()), ("next", to.next.into())]);
    }
    fields.extend([
        ("line", line(one.line).into()),
        ("positions", json_list(one.positions.iter().copied())),
    ]);
    fields.into()
}

fn line(line: Line) -> &'static str {
    match line {
        Line::Rule => "rule",
        Line::Fault => "fault",
        Line::Unspecified => "unspecified",
        Line::Specified => "specified",
    }
}

/// Which form of a picture is asked for, if it is not DOT.
fn form(arguments: &Arguments) -> Result<Option<&'static str>, Failure> {
    let forms = [&SVG, &TABLE, &MEALY].map(|form| form.name);
    let mut asked = forms.into_iter().filter(|form| arguments.has(form));
    match (asked.next(), asked.next()) {
        (Some(one), Some(two)) => Err(arguments.wrong(format!("takes {one} or {two}, not both"))),
        (one, _) => Ok(one),
    }
}
