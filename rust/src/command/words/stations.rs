//! `station` and `lock`: one drives a lock, the other is one. Joined by two pipes they end with a verdict.

use super::boards::{board, shown};
use super::{JSON, NAMES, STATE};
use crate::command::Status;
use crate::command::arguments::Arguments;
use crate::command::failure::Failure;
use crate::command::input::Input;
use crate::command::json::{Fields, Json};
use crate::command::output::print;
use crate::command::state::{load, save};
use crate::command::work::watched;
use ranthelo::asked::{Asked, why};
use ranthelo::{Failure as Failed, Named, Names, Refusal, Station, Step};
use std::ffi::OsStr;
use std::io::{self, BufRead};

pub fn station(arguments: &Arguments) -> Result<Status, Failure> {
    let input = Input::open(arguments.argument(0), arguments)?;
    let kept = match arguments.value(STATE.name) {
        Some(path) => load(path)?,
        None => None,
    };
    let begin = || match &kept {
        Some((sheet, state)) => Station::resume(sheet, *state),
        None => Station::begin(&input.sheet),
    };
    let work = || {
        let station = begin().map_err(|r| input.refused(r, &Asked::Station))?;
        Driving {
            arguments,
            station,
            names: input.names.clone(),
        }
        .go()
    };
    watched(work, || ())?
}

/// A line of a station or a lock, in words and as JSON.
struct Said {
    words: String,
    fields: Fields,
}

impl Said {
    fn new(words: impl Into<String>, fields: Fields) -> Self {
        let words = words.into();
        Said { words, fields }
    }

    /// A word that says all.
    fn word(word: &'static str) -> Self {
        Said::new(word, vec![("answer", word.into())])
    }

    /// A line that can't be taken.
    fn mistake(what: impl Into<String>) -> Self {
        let what = what.into();
        let fields = vec![("answer", "mistake".into()), ("why", what.clone().into())];
        Said::new(format!("mistake: {what}"), fields)
    }

    fn refused(refusal: Refusal, why: String) -> Self {
        let Refusal { number, place } = refusal;
        let words = format!("refused {number} at {place}: {why}");
        let fields = vec![
            ("answer", "refused".into()),
            ("number", number.into()),
            ("place", place.into()),
            ("why", why.into()),
        ];
        Said::new(words, fields)
    }

    fn failure(failure: Failed) -> Self {
        let Failed { test, position } = failure;
        let fields = vec![
            ("answer", "fails".into()),
            ("test", test.into()),
            ("position", position.into()),
        ];
        Said::new(failure.to_string(), fields)
    }

    fn print(self, arguments: &Arguments) -> Result<(), Failure> {
        let line = match arguments.has(JSON.name) {
            true => Json::from(self.fields).to_string(),
            false => self.words,
        };
        print(format!("{line}\n").as_bytes())
    }
}

/// A station with the names of its sheet.
struct Driving<'a> {
    arguments: &'a Arguments,
    station: Station,
    names: Names,
}

impl Driving<'_> {
    /// Answers each line of standard input with a line.
    fn go(mut self) -> Result<Status, Failure> {
        for line in io::stdin().lock().lines() {
            let line = line.map_err(|error| Failure::unusable("standard input", error))?;
            let words: Vec<&str> = line.split_whitespace().collect();
            let answer = match words[..] {
                [] => continue,
                ["next"] => self.next(),
                ["sound", sound] => self.sound(sound),
                ["sheet", ..] => self.change(line.trim().trim_start_matches("sheet").trim()),
                _ => Said::mistake("a line is next, sound O or sheet FILE"),
            };
            if let Some(path) = self.arguments.value(STATE.name) {
                save(path, self.station.sheet(), self.station.state())?;
            }
            answer.print(self.arguments)?;
        }
        match self.station.state()[3] {
            0 => Err(Failure::unusable(
                "standard input",
                "it ended before the verdict",
            )),
            1 => Ok(Status::Good),
            _ => Ok(Status::Wanting),
        }
    }

    fn next(&mut self) -> Said {
        match self.station.next_step() {
            Step::Pulse { test } => {
                let fields = vec![("answer", "pulse".into()), ("test", test.into())];
                Said::new("pulse", fields)
            }
            Step::Press { press, position } => {
                let name = match self.arguments.has(NAMES.name) {
                    true => self.names.press(press),
                    false => press.to_string(),
                };
                let mut fields = vec![
                    ("answer", "press".into()),
                    ("press", press.into()),
                    ("position", position.into()),
                ];
                fields.extend(named(&self.names, Named::Press, press));
                Said::new(format!("press {name}"), fields)
            }
            Step::Pass => Said::word("pass"),
            Step::Failure(failure) => Said::failure(failure),
        }
    }

    fn sound(&mut self, word: &str) -> Said {
        let sound = match self.names.value(Named::Sound, word) {
            Ok(sound) => sound,
            Err(what) => return Said::mistake(what),
        };
        let [_, _, due, verdict] = self.station.state();
        let due = due != 0 && verdict == 0;
        match self.station.sound(sound) {
            Ok(None) => Said::word("taken"),
            Ok(Some(failure)) => Said::failure(failure),
            Err(refusal) => {
                let asked = Asked::Sound { sound, due };
                let why = why(self.station.sheet(), &asked, refusal, &self.names);
                Said::refused(refusal, why)
            }
        }
    }

    fn change(&mut self, file: &str) -> Said {
        let changed = match Input::open(OsStr::new(file), self.arguments) {
            Ok(changed) => changed,
            Err(failure) => return Said::mistake(failure.said()),
        };
        let before = self.station.sheet().to_vec();
        let [begun, _, _, verdict] = self.station.state();
        match self.station.change(&changed.sheet) {
            Ok(()) => {
                self.names = changed.names;
                Said::word("taken")
            }
            Err(refusal) => {
                let (before, over) = (&before[..], verdict != 0);
                let asked = Asked::Changed {
                    before,
                    begun,
                    over,
                };
                let why = why(&changed.sheet, &asked, refusal, &changed.names);
                Said::refused(refusal, why)
            }
        }
    }
}

/// A board that answers as a lock does, and asks the station for the next step.
pub fn lock(arguments: &Arguments) -> Result<Status, Failure> {
    let board = board(arguments)?;
    let input = Input::open(arguments.argument(0), arguments)?;
    ranthelo::run(&input.sheet, &board, &[])
        .map_err(|r| input.refused(r, &Asked::Board(&board)))?;
    let mut presses: Vec<u8> = Vec::new();
    Said::word("next").print(arguments)?;
    for line in io::stdin().lock().lines() {
        let line = line.map_err(|error| Failure::unusable("standard input", error))?;
        let words: Vec<&str> = line.split_whitespace().collect();
        let answer = match words[..] {
            [] => continue,
            ["pulse"] => {
                presses.clear();
                Said::word("next")
            }
            ["taken"] => Said::word("next"),
            ["press", press] => match input.names.value(Named::Press, press) {
                Ok(press) => {
                    presses.push(press);
                    sound(arguments, &input, &board, &presses)?
                }
                Err(what) => Said::mistake(what),
            },
            ["pass"] => return Ok(Status::Good),
            ["fails", ..] => return Ok(Status::Wanting),
            _ => Said::mistake("a line is pulse, press X, taken, pass or fails"),
        };
        answer.print(arguments)?;
    }
    Ok(Status::Good)
}

/// The sound that a board gives on the last of some presses.
fn sound(
    arguments: &Arguments,
    input: &Input,
    board: &[u8],
    presses: &[u8],
) -> Result<Said, Failure> {
    let asked = Asked::Run { board, presses };
    let run = ranthelo::run(&input.sheet, board, presses);
    let run = run.map_err(|r| input.refused(r, &asked))?;
    let sound = run.sounds.last().copied().unwrap_or(0);
    let mut fields = vec![("answer", "sound".into()), ("sound", sound.into())];
    fields.extend(named(&input.names, Named::Sound, sound));
    let name = shown(arguments, input).sound(sound);
    Ok(Said::new(format!("sound {name}"), fields))
}

/// The name of a press or a sound as JSON, if it has one.
fn named(names: &Names, kind: Named, number: u8) -> Fields {
    let name = names.of(kind).get(usize::from(number));
    let field = name.map(|name| ("name", name.as_str().into()));
    field.into_iter().collect()
}
