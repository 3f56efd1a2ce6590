//! `help`, `completion` and `man`.

use crate::command::arguments::Arguments;
use crate::command::failure::Failure;
use crate::command::output::print;
use crate::command::{Status, completion as scripts, find, manual, overview};

pub fn help(arguments: &Arguments) -> Result<Status, Failure> {
    let text = match arguments.all() {
        [] => overview(),
        [name, ..] => find(name)?.help(),
    };
    print(text.as_bytes()).map(|()| Status::Good)
}

pub fn completion(arguments: &Arguments) -> Result<Status, Failure> {
    let shell = arguments.argument(0).to_string_lossy();
    let script = match &*shell {
        "bash" => scripts::bash(),
        "zsh" => scripts::zsh(),
        "fish" => scripts::fish(),
        other => return Err(arguments.wrong(format!("knows bash, zsh and fish, not {other}"))),
    };
    print(script.as_bytes()).map(|()| Status::Good)
}

pub fn man(_: &Arguments) -> Result<Status, Failure> {
    print(manual::page().as_bytes()).map(|()| Status::Good)
}
