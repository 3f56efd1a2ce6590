//! `run`, `first-failed` and `compare`.

use super::{BOARD, EXPLAIN, NAMES, PRESS};
use crate::command::Status;
use crate::command::answer::Answer;
use crate::command::arguments::Arguments;
use crate::command::failure::Failure;
use crate::command::input::Input;
use crate::command::json::{Fields, bytes, list};
use ranthelo::asked::Asked;
use ranthelo::commands::{TEST, commands};
use ranthelo::{Comparison, Failure as Failed, Named, Names, Used, explain};

/// The names to print: those of the text if they are asked for.
pub fn shown(arguments: &Arguments, input: &Input) -> Names {
    match arguments.has(NAMES.name) {
        true => input.names.clone(),
        false => Names::default(),
    }
}

/// The board that the option names.
pub fn board(arguments: &Arguments) -> Result<Vec<u8>, Failure> {
    arguments.list(BOARD.name, None, &Names::default())
}

fn used(used: Used) -> Fields {
    vec![("used", list(used.pairs()))]
}

pub fn run(arguments: &Arguments, input: &Input) -> Result<Answer, Failure> {
    let presses = arguments.list(PRESS.name, Some(Named::Press), &input.names)?;
    let board = board(arguments)?;
    let asked = Asked::Run {
        board: &board,
        presses: &presses,
    };
    let run =
        ranthelo::run(&input.sheet, &board, &presses).map_err(|r| input.refused(r, &asked))?;
    let lines = run.named(&shown(arguments, input)) + "\n";
    let mut fields: Fields = vec![("answer", "ran".into()), ("sound", bytes(&run.sounds))];
    fields.extend(used(run.used));
    Ok(Answer::new(Status::Good, lines, fields))
}

pub fn first_failed(arguments: &Arguments, input: &Input) -> Result<Answer, Failure> {
    let (board, sheet) = (board(arguments)?, &input.sheet);
    let refused = |r| input.refused(r, &Asked::Board(&board));
    let trial = ranthelo::first_failed(sheet, &board).map_err(refused)?;
    let (status, mut fields): (Status, Fields) = match trial.failure {
        None => (Status::Good, vec![("answer", "passes".into())]),
        Some(Failed { test, position }) => {
            let place = [("test", test.into()), ("position", position.into())];
            let fields = [("answer", "fails".into())].into_iter().chain(place);
            (Status::Wanting, fields.collect())
        }
    };
    fields.extend(used(trial.used));
    let mut answer = Answer::new(status, format!("{trial}\n"), fields);
    if arguments.has(EXPLAIN.name) {
        answer.explain(explain::trial(sheet, &board, &trial, &input.names).map_err(refused)?);
    }
    Ok(answer)
}

/// The presses of PRESS commands.
pub fn presses(part: &[u8]) -> Vec<u8> {
    let operands = commands(part).flat_map(|command| command.operands());
    operands.copied().collect()
}

/// The presses of each test.
pub fn tests(part: &[u8]) -> Vec<Vec<u8>> {
    let mut tests: Vec<Vec<u8>> = Vec::new();
    for command in commands(part) {
        match tests.last_mut() {
            Some(test) if command.byte() != TEST => test.extend(command.operands()),
            _ => tests.push(Vec::new()),
        }
    }
    tests
}

pub fn compare(arguments: &Arguments, input: &Input) -> Result<Answer, Failure> {
    let (board, sheet) = (board(arguments)?, &input.sheet);
    let refused = |r| input.refused(r, &Asked::Board(&board));
    let comparison = ranthelo::compare(sheet, &board).map_err(refused)?;
    let (status, fields): (Status, Fields) = match &comparison {
        Comparison::Conforms => (Status::Good, vec![("answer", "conforms".into())]),
        Comparison::Departs { sequence } => {
            let fields = vec![("answer", "departs".into()), ("press", bytes(sequence))];
            (Status::Wanting, fields)
        }
    };
    let lines = comparison.named(&shown(arguments, input)) + "\n";
    let mut answer = Answer::new(status, lines, fields);
    if arguments.has(EXPLAIN.name) {
        let told = explain::comparison(sheet, &board, &comparison, &input.names);
        answer.explain(told.map_err(refused)?);
    }
    Ok(answer)
}
