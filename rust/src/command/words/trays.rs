//! `tray`.

use super::fields;
use crate::command::Status;
use crate::command::answer::{on_each, print_answer};
use crate::command::arguments::Arguments;
use crate::command::failure::Failure;
use crate::command::input::{Input, open};
use crate::command::json::{Fields, Json, bytes, list};
use ranthelo::asked::Asked;
use std::ffi::OsStr;

/// More than any tray needs.
const MOST: u64 = 1 << 28;

pub fn tray(arguments: &Arguments) -> Result<Status, Failure> {
    let input = Input::open(arguments.argument(0), arguments)?;
    on_each(arguments, &arguments.all()[1..], |path| {
        tray_of(arguments, &input, path)
    })
}

/// What the list makes of the boards of one file.
fn tray_of(arguments: &Arguments, input: &Input, path: &OsStr) -> Result<Status, Failure> {
    let (name, lines) = open(path, MOST)?;
    let boards = boards(&name, &lines)?;
    let choices = boards.concat();
    let asked = Asked::Tray {
        boards: boards.len(),
        choices: &choices,
    };
    let width = ranthelo::read(&input.sheet)
        .map_err(|r| input.refused(r, &Asked::Sheet))?
        .open_pairs;
    if let Some(board) = boards.iter().find(|board| board.len() != width) {
        // The library says so of the board alone.
        let alone = ranthelo::tray(&input.sheet, 1, board);
        alone.map_err(|r| input.refused(r, &Asked::Board(board)))?;
    }
    let results = ranthelo::tray(&input.sheet, boards.len(), &choices);
    let results = results.map_err(|r| input.refused(r, &asked))?;
    let line = |(board, result): (&Vec<u8>, &Option<usize>)| {
        let told = result.map_or("passes".to_string(), |test| format!("fails {test}"));
        format!("{} {told}\n", fields("board", board).trim_end())
    };
    let lines: String = boards.iter().zip(&results).map(line).collect();
    let field = |(board, result): (&Vec<u8>, &Option<usize>)| {
        let mut fields: Fields = vec![("board", bytes(board))];
        match result {
            None => fields.push(("answer", "passes".into())),
            Some(test) => fields.extend([("answer", "fails".into()), ("test", Json::from(*test))]),
        }
        Json::from(fields)
    };
    let tried = list(boards.iter().zip(&results).map(field));
    let fields = vec![
        ("tray", name.into()),
        ("answer", "tried".into()),
        ("boards", tried),
    ];
    print_answer(arguments, input, &lines, fields)?;
    Ok(match results.iter().all(Option::is_none) {
        true => Status::Good,
        false => Status::Wanting,
    })
}

/// The boards in some lines: `0 1`, `0,1`, or what walk prints.
fn boards(name: &str, lines: &[u8]) -> Result<Vec<Vec<u8>>, Failure> {
    let mut boards = Vec::new();
    for (i, line) in String::from_utf8_lossy(lines).lines().enumerate() {
        let told = line.split('#').next().unwrap_or("");
        let mut words = told
            .split([' ', ',', '\t', '\r'])
            .filter(|word| !word.is_empty())
            .peekable();
        let named = words.next_if(|word| *word == "board").is_some();
        match words.peek() {
            None if !named => continue,
            Some(&("end" | "more")) if !named => continue,
            _ => {}
        }
        let digits = |word: &&str| !named || word.bytes().all(|digit| digit.is_ascii_digit());
        let choice = |word: &str| {
            let wrong = || {
                Failure::unusable(
                    name,
                    format!("line {}: {word} is no choice, 0 to 255", i + 1),
                )
            };
            word.parse().map_err(|_| wrong())
        };
        boards.push(
            words
                .take_while(digits)
                .map(choice)
                .collect::<Result<_, _>>()?,
        );
    }
    Ok(boards)
}
