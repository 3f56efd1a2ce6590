//! Read and one test's part.

use super::memory::{bytes, Answer};
use crate::reference::{Refusal, Summary};
use ranthelo::raw::{read, test_span};
use std::ops::Range;

pub fn checked_read(sheet: &[u8]) -> Result<Summary, Refusal> {
    let sheet = bytes(sheet);
    let mut answer = Answer::new();
    read(sheet.content(), answer.lend());
    sheet.untouched();
    let words = answer.result()?;
    Ok(Summary {
        states: words[0],
        presses: words[1],
        sounds: words[2],
        rules: words[3],
        faults: words[4],
        tests: words[5],
        open_pairs: words[6],
    })
}

pub fn checked_test_part(sheet: &[u8], test: usize) -> Result<Range<usize>, Refusal> {
    let sheet = bytes(sheet);
    let mut answer = Answer::new();
    test_span(sheet.content(), test, answer.lend());
    sheet.untouched();
    let words = answer.result()?;
    Ok(words[0]..words[0] + words[1])
}
