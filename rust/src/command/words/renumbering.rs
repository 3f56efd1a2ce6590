//! `renumber` and `same`.

use super::joining::two;
use crate::command::Status;
use crate::command::answer::print_answer;
use crate::command::arguments::Arguments;
use crate::command::failure::Failure;
use crate::command::input::Input;
use crate::command::output::{Content, Written};
use ranthelo::Names;
use ranthelo::asked::Asked;
use ranthelo::machine::Machine;
use ranthelo::text::disassemble_named;
use std::ffi::OsStr;

pub fn renumber(arguments: &Arguments, path: &OsStr) -> Result<Written, Failure> {
    let input = Input::open(path, arguments)?;
    let sheet = ranthelo::renumber(&input.sheet).map_err(|r| input.refused(r, &Asked::Sheet))?;
    let names = renamed(&input, &sheet);
    let text = disassemble_named(&sheet, &names);
    let content = Content::Sheet { bytes: sheet, text };
    let fields = vec![("answer", "renumbered".into())];
    Ok(Written::new(&input.name, &names, content, fields))
}

/// The names of a sheet whose states were renumbered: both are walked together from state 0.
fn renamed(input: &Input, sheet: &[u8]) -> Names {
    let mut names = input.names.clone();
    let (Ok(old), Ok(new)) = (Machine::of(&input.sheet), Machine::of(sheet)) else {
        return names;
    };
    if names.states.is_empty() {
        return names;
    }
    let mut met = vec![(0, 0)];
    let mut next = 0;
    while let Some(&(state, other)) = met.get(next) {
        for press in 0..old.presses {
            let steps = (
                old.rules.get(&(state, press)),
                new.rules.get(&(other, press)),
            );
            if let (Some(one), Some(two)) = steps
                && !met.contains(&(one.next, two.next))
            {
                met.push((one.next, two.next));
            }
        }
        next += 1;
    }
    for (state, other) in met {
        names.states[usize::from(other)] = input.names.state(state);
    }
    names
}

pub fn same(arguments: &Arguments) -> Result<Status, Failure> {
    let [first, second] = two(arguments)?;
    let form = |input: &Input| {
        ranthelo::renumber(&input.sheet).map_err(|r| input.refused(r, &Asked::Sheet))
    };
    let (word, status) = match form(&first)? == form(&second)? {
        true => ("same", Status::Good),
        false => ("different", Status::Wanting),
    };
    let fields = vec![
        ("second", second.name.as_str().into()),
        ("answer", word.into()),
    ];
    print_answer(arguments, &first, &format!("{word}\n"), fields)?;
    Ok(status)
}
