//! `walk` and `add`.

use super::boards::shown;
use super::{AFTER, COUNT, DEPARTING, MOST, NEW_TEST};
use crate::command::Status;
use crate::command::answer::{on_each, print_answer};
use crate::command::arguments::Arguments;
use crate::command::failure::Failure;
use crate::command::input::Input;
use crate::command::json::{Fields, bytes};
use crate::command::output::{Content, Written};
use crate::command::work::watched;
use ranthelo::asked::Asked;
use ranthelo::machine::Machine;
use ranthelo::score::Walked;
use ranthelo::{Comparison, Named, Names, Passing, Place, Walk};
use std::ffi::OsStr;

pub fn walk(arguments: &Arguments) -> Result<Status, Failure> {
    let most = arguments.option_number(MOST.name)?.unwrap_or(usize::MAX);
    let after = arguments.list(AFTER.name, None, &Names::default())?;
    on_each(arguments, arguments.all(), |path| {
        walk_on(arguments, path, most, &after)
    })
}

/// Walks over the boards of one sheet.
fn walk_on(
    arguments: &Arguments,
    path: &OsStr,
    most: usize,
    after: &[u8],
) -> Result<Status, Failure> {
    let input = Input::open(path, arguments)?;
    let place = match arguments.has(AFTER.name) {
        true => Place::Board(after.to_vec()),
        false => Place::Start,
    };
    let walk =
        Walk::from(&input.sheet, place).map_err(|r| input.refused(r, &Asked::Board(after)))?;
    let walking = Walking {
        arguments,
        input: &input,
        names: shown(arguments, &input),
        walk,
        met: Walked::default(),
    };
    watched(|| walking.go(most), || ())?
}

/// A walk that is printed.
struct Walking<'a> {
    arguments: &'a Arguments,
    input: &'a Input,
    names: Names,
    walk: Walk,
    met: Walked,
}

impl Walking<'_> {
    /// So many boards at most, then whether there are more.
    fn go(mut self, most: usize) -> Result<Status, Failure> {
        let departing = self.arguments.has(DEPARTING.name);
        let start = *self.walk.place() == Place::Start;
        let mut told = 0;
        let ended = loop {
            let Some(one) = self.walk.next() else {
                break true;
            };
            let departs = one.comparison != Comparison::Conforms;
            if told == most && (departs || !departing) {
                break false;
            }
            match departs {
                true => self.met.departing += 1,
                false => self.met.conforming += 1,
            }
            if departs || !departing {
                self.tell(&one)?;
                told += 1;
            }
        };
        let end = if ended { "end" } else { "more" };
        let fields = vec![("answer", end.into())];
        print_answer(self.arguments, self.input, &format!("{end}\n"), fields)?;
        if self.arguments.has(COUNT.name) {
            self.count(start && ended)?;
        }
        Ok(match self.met.departing {
            0 => Status::Good,
            _ => Status::Wanting,
        })
    }

    /// `board 0 1 conforms`, or `board 0 2 departs 0 1 0`
    fn tell(&self, one: &Passing) -> Result<(), Failure> {
        if self.arguments.has(COUNT.name) {
            return Ok(());
        }
        let answer: Fields = match &one.comparison {
            Comparison::Conforms => vec![("answer", "conforms".into())],
            Comparison::Departs { sequence } => {
                vec![("answer", "departs".into()), ("press", bytes(sequence))]
            }
        };
        let line = one.named(&self.names) + "\n";
        let board = [("board", bytes(&one.board))];
        let fields = board.into_iter().chain(answer).collect();
        print_answer(self.arguments, self.input, &line, fields)
    }

    /// How many there were; of a whole walk also how many of the departing boards the list finds.
    fn count(&self, whole: bool) -> Result<(), Failure> {
        let Walked {
            conforming,
            departing,
        } = self.met;
        let passing = self.met.passing();
        let mut lines = format!("{}\n", self.met);
        let mut fields: Fields = vec![
            ("answer", "count".into()),
            ("passing", (passing as usize).into()),
            ("conforming", (conforming as usize).into()),
            ("departing", (departing as usize).into()),
        ];
        if let Some(machine) = Machine::of(self.walk.sheet()).ok().filter(|_| whole) {
            let (found, all) = self.met.score(&machine);
            lines += &format!("score {found}/{all}\n");
            fields.push(("score", format!("{found}/{all}").into()));
        }
        print_answer(self.arguments, self.input, &lines, fields)
    }
}

pub fn add(arguments: &Arguments, path: &OsStr) -> Result<Written, Failure> {
    let input = Input::open(path, arguments)?;
    let presses = arguments.list(NEW_TEST.name, Some(Named::Press), &input.names)?;
    let sheet = ranthelo::add_test(&input.sheet, &presses);
    let sheet = sheet.map_err(|r| input.refused(r, &Asked::NewTest(&presses)))?;
    let more = &sheet[input.sheet.len() - 1..sheet.len() - 1];
    let text = input.text_with(more, &sheet);
    let content = Content::Sheet { bytes: sheet, text };
    let fields = vec![("answer", "written".into())];
    Ok(Written::new(&input.name, &input.names, content, fields))
}
