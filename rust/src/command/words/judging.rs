//! `judge` and `make`.

use super::boards::{shown, tests};
use super::{EXPLAIN, MOST, TESTS};
use crate::command::Status;
use crate::command::answer::Answer;
use crate::command::arguments::Arguments;
use crate::command::failure::Failure;
use crate::command::input::Input;
use crate::command::json::{Fields, bytes, list as json_list};
use crate::command::making::{self, Tests};
use crate::command::output::{Content, Written};
use crate::command::words::JSON;
use crate::command::work::at_work;
use ranthelo::asked::Asked;
use ranthelo::text::lines_of;
use ranthelo::{Refusal, Verdict, explain, list};
use std::ffi::OsStr;

pub fn judge(arguments: &Arguments, input: &Input) -> Result<Answer, Failure> {
    let sheet = &input.sheet;
    let work = format!("{}: judging takes a while", input.name);
    let explains = arguments.has(EXPLAIN.name);
    match at_work(&work, || ranthelo::judge(sheet))? {
        Ok(verdict) => {
            let (status, fields) = judged(&verdict);
            let lines = verdict.named(&shown(arguments, input)) + "\n";
            let mut answer = Answer::new(status, lines, fields);
            if explains {
                let told = explain::verdict(sheet, &verdict, &input.names);
                answer.explain(told.map_err(|r| input.refused(r, &Asked::Sheet))?);
            }
            Ok(answer)
        }
        Err(refusal) => {
            let Refusal { number, place } = refusal;
            let failure = input.refused(refusal, &Asked::Sheet);
            let lines = format!("refused {number} at {place}\n");
            let mut answer = Answer::new(Status::Refused, lines, failure.fields());
            if explains {
                answer.explain(list::marked(sheet, refusal));
            }
            answer.failure = Some(failure);
            Ok(answer)
        }
    }
}

/// The status of a verdict, and the verdict as JSON.
fn judged(verdict: &Verdict) -> (Status, Fields) {
    match verdict {
        Verdict::Complete => (Status::Good, vec![("answer", "complete".into())]),
        Verdict::Survivor { board, sequence } => {
            let answer = ("answer", "survivor".into());
            let fields = vec![answer, ("board", bytes(board)), ("press", bytes(sequence))];
            (Status::Wanting, fields)
        }
    }
}

pub fn make(arguments: &Arguments, path: &OsStr) -> Result<Written, Failure> {
    let most = arguments.option_number(MOST.name)?;
    let input = Input::open(path, arguments)?;
    let Tests { sheet, complete } = making::tests(&input, most)?;
    let more = sheet
        .get(input.sheet.len() - 1..sheet.len() - 1)
        .unwrap_or_default();
    let appended = tests(more);
    let fields = vec![
        ("answer", "made".into()),
        ("tests", json_list(appended.iter().map(|test| bytes(test)))),
        ("complete", complete.into()),
    ];
    let alone = arguments.has(TESTS.name) && !arguments.has(JSON.name);
    let content = match alone {
        true => Content::Lines {
            text: lines_of(more, &input.names),
            extension: "txt",
        },
        false => Content::Sheet {
            text: input.text_with(more, &sheet),
            bytes: sheet,
        },
    };
    let (name, appended) = (&input.name, appended.len());
    let (left, status) = match complete {
        true => ("", Status::Good),
        false => ("; the list is not complete yet", Status::Wanting),
    };
    let tests = if appended == 1 { "test" } else { "tests" };
    Ok(Written {
        status,
        note: Some(format!("{name}: {appended} {tests} appended{left}")),
        ..Written::new(name, &input.names, content, fields)
    })
}
