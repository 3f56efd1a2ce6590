//! `log`.

use super::EXPLAIN;
use crate::command::Status;
use crate::command::answer::{on_each, print_answer};
use crate::command::arguments::Arguments;
use crate::command::failure::Failure;
use crate::command::input::{Input, open};
use crate::command::json::{Fields, bytes};
use crate::command::work::at_work;
use ranthelo::asked::{Asked, why};
use ranthelo::machine::Machine;
use ranthelo::records::{Place, Record};
use ranthelo::{Comparison, Names, Passing, Recorded, Refusal};
use std::ffi::OsStr;

/// Any record that fits into memory.
const MOST: u64 = 1 << 32;

pub fn log(arguments: &Arguments) -> Result<Status, Failure> {
    let input = Input::open(arguments.argument(0), arguments)?;
    on_each(arguments, &arguments.all()[1..], |path| {
        log_of(arguments, &input, path)
    })
}

/// What one record tells.
fn log_of(arguments: &Arguments, input: &Input, path: &OsStr) -> Result<Status, Failure> {
    let (name, source) = open(path, MOST)?;
    let record = Record::read(&source, &input.names)
        .map_err(|mistakes| Failure::mistaken(&name, &mistakes))?;
    let logged = Logged {
        input,
        name: &name,
        record: &record,
    };
    let work = format!("{name}: looking for a board takes a while");
    let found = at_work(&work, || {
        let recorded = ranthelo::check_record(&input.sheet, &record.bytes)?;
        let board = match arguments.has(EXPLAIN.name) {
            true => ranthelo::explain_record(&input.sheet, &record.bytes)?,
            false => None,
        };
        Ok((recorded, board))
    })?;
    let (recorded, board) = found.map_err(|refusal| logged.refused(refusal))?;
    let mut lines = format!("{recorded}\n");
    let mut fields = logged.fields(&recorded);
    if arguments.has(EXPLAIN.name) {
        let told = logged.explained(&recorded, board.as_ref());
        lines += &format!("\n{told}");
        fields.push(("explained", told.into()));
        fields.extend(board.map(|found| ("board", bytes(&found.board))));
    }
    print_answer(arguments, input, &lines, fields)?;
    Ok(match recorded.differs.is_none() && recorded.given {
        true => Status::Good,
        false => Status::Wanting,
    })
}

/// A record and the sheet that it is beside.
struct Logged<'a> {
    input: &'a Input,
    name: &'a str,
    record: &'a Record,
}

impl Logged<'_> {
    /// A refusal of the sheet, or of the record with its line.
    fn refused(&self, refusal: Refusal) -> Failure {
        if ranthelo::read(&self.input.sheet).is_err() {
            return self.input.refused(refusal, &Asked::Sheet);
        }
        let asked = Asked::Record(&self.record.bytes);
        let why = why(&self.input.sheet, &asked, refusal, &self.input.names);
        let line = self.record.place(refusal.place).line;
        Failure::refused(self.name, refusal, line, &why)
    }

    fn fields(&self, recorded: &Recorded) -> Fields {
        let word = if recorded.differs.is_some() {
            "differs"
        } else {
            "as specified"
        };
        let mut fields: Fields = vec![("record", self.name.into()), ("answer", word.into())];
        if let Some(place) = recorded.differs {
            let Place {
                pulse,
                position,
                line,
            } = self.record.place(place);
            fields.extend([
                ("place", place.into()),
                ("pulse", pulse.into()),
                ("position", position.into()),
            ]);
            fields.extend(line.map(|line| ("line", line.into())));
        }
        fields.push(("given", recorded.given.into()));
        fields
    }

    /// Where the first difference is, and which board gives the record.
    fn explained(&self, recorded: &Recorded, board: Option<&Passing>) -> String {
        let differs = recorded.differs.and_then(|place| self.difference(place));
        let found = match board {
            None => {
                "No board of the sheet gives every sound: the lock is none of them.\n".to_string()
            }
            Some(Passing { board, comparison }) => {
                let choices: Vec<String> = board.iter().map(u8::to_string).collect();
                let what = match comparison {
                    Comparison::Conforms => "which conforms".to_string(),
                    Comparison::Departs { .. } => "which departs".to_string(),
                };
                format!(
                    "The first board that gives every sound is board {}, {what}.\n",
                    choices.join(" ")
                )
            }
        };
        differs.unwrap_or_default() + &found
    }

    /// `pulse 0, position 2, line 3: press 1 gave sound 0; specified: sound 1`
    fn difference(&self, place: usize) -> Option<String> {
        let names: &Names = &self.input.names;
        let Place {
            pulse,
            position,
            line,
        } = self.record.place(place);
        let &[_, press, sound] = self.record.bytes.get(place..place + 3)? else {
            return None;
        };
        let machine = Machine::of(&self.input.sheet).ok()?;
        let before = self.record.presses_before(place);
        let rule = machine.rules.get(&(machine.reached(&before)?, press))?;
        let line = line.map_or(String::new(), |line| format!(", line {line}"));
        let (press, sound, specified) = (
            names.press(press),
            names.sound(sound),
            names.sound(rule.sound),
        );
        Some(format!(
            "Pulse {pulse}, position {position}{line}: press {press} gave sound {sound}; \
             specified: sound {specified}.\n"
        ))
    }
}
