//! `merge`.

use crate::command::Status;
use crate::command::arguments::Arguments;
use crate::command::failure::Failure;
use crate::command::input::Input;
use crate::command::output::{Content, Written, deliver};
use ranthelo::MergeRefusal;
use ranthelo::asked::Asked;
use ranthelo::commands::{FAULT, START, TEST, commands};
use std::collections::BTreeSet;

/// The two sheets.
pub fn two(arguments: &Arguments) -> Result<[Input; 2], Failure> {
    let first = Input::open(arguments.argument(0), arguments)?;
    Ok([first, Input::open(arguments.argument(1), arguments)?])
}

pub fn merge(arguments: &Arguments) -> Result<Status, Failure> {
    let [first, second] = two(arguments)?;
    let merged = ranthelo::merge(&first.sheet, &second.sheet);
    let sheet = merged.map_err(|MergeRefusal { sheet, refusal }| match sheet {
        Some(2) => second.refused(refusal, &Asked::Sheet),
        _ => first.refused(refusal, &Asked::Second(&second.sheet)),
    })?;
    let more = rows_of_second(&first.sheet, &second.sheet);
    let text = first.text_with(&more, &sheet);
    let content = Content::Sheet { bytes: sheet, text };
    let fields = vec![
        ("second", second.name.as_str().into()),
        ("answer", "merged".into()),
    ];
    let written = Written::new(&first.name, &first.names, content, fields);
    deliver(arguments, arguments.argument(0), written)
}

/// The FAULTs and STARTs of the second sheet that the first has not, and its tests.
fn rows_of_second(first: &[u8], second: &[u8]) -> Vec<u8> {
    let own: BTreeSet<&[u8]> = commands(first).map(|command| command.bytes).collect();
    let mut more = Vec::new();
    let mut tests = false;
    for command in commands(second) {
        tests |= command.byte() == TEST;
        let row = [FAULT, START].contains(&command.byte()) && !own.contains(command.bytes);
        if row || tests && command.end() < second.len() {
            more.extend(command.bytes);
        }
    }
    more
}
