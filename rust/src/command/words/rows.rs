//! `faults` and `import`.

use super::{ALL, OUTPUTS, TRANSFERS};
use crate::command::arguments::Arguments;
use crate::command::failure::Failure;
use crate::command::input::{Input, open};
use crate::command::json::{Fields, bytes, list};
use crate::command::output::{Content, Written};
use ranthelo::asked::{Asked, why};
use ranthelo::commands::FAULT;
use ranthelo::faults::{Model, rows};
use ranthelo::machine::Machine;
use ranthelo::text::disassemble_named;
use ranthelo::{MOST_FAULTS, import as importing, text};
use std::ffi::OsStr;

pub fn faults(arguments: &Arguments, path: &OsStr) -> Result<Written, Failure> {
    let [output, transfer, all] =
        [&OUTPUTS, &TRANSFERS, &ALL].map(|option| arguments.has(option.name));
    if !(output || transfer || all) {
        return Err(arguments.wrong("needs --output, --transfer or --all"));
    }
    let model = match all {
        true => Model::ALL,
        false => Model {
            output,
            transfer,
            both: false,
        },
    };
    let input = Input::open(path, arguments)?;
    let machine = Machine::of(&input.sheet).map_err(|r| input.refused(r, &Asked::Sheet))?;
    let (rows, name) = (rows(&machine, model), &input.name);
    let all = rows.len() + machine.faults.values().map(Vec::len).sum::<usize>();
    let note = format!("{name}: {all} FAULTs, over {MOST_FAULTS}");
    let lines = rows.iter().flat_map(|row| [&[FAULT], &row[..]].concat());
    let text = text::lines_of(&lines.collect::<Vec<u8>>(), &input.names);
    let content = Content::Lines {
        text,
        extension: "txt",
    };
    let faults = list(rows.iter().map(|row| bytes(row)));
    let fields = vec![("answer", "faults".into()), ("faults", faults)];
    Ok(Written {
        note: (all > MOST_FAULTS).then_some(note),
        ..Written::new(name, &input.names, content, fields)
    })
}

pub fn import(_: &Arguments, path: &OsStr) -> Result<Written, Failure> {
    let (name, source) = open(path, 1 << 20)?;
    let imported = importing::machine(&source);
    let imported = imported.map_err(|mistakes| Failure::mistaken(&name, &mistakes))?;
    let (sheet, names) = (&imported.sheet, &imported.names);
    let refusal = ranthelo::read(sheet).err().map(|refusal| {
        let why = why(sheet, &Asked::Sheet, refusal, names);
        Failure::refused(&name, refusal, None, &why)
    });
    let text = disassemble_named(sheet, names);
    let mut fields: Fields = refusal
        .as_ref()
        .map_or(vec![("answer", "imported".into())], Failure::fields);
    fields.extend([("sheet", bytes(sheet)), ("text", text.as_str().into())]);
    let content = Content::Lines {
        text,
        extension: "txt",
    };
    Ok(Written {
        failure: refusal,
        ..Written::new(&name, names, content, fields)
    })
}
