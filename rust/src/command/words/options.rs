//! The options of all words.

use super::Choice;

/// An option without a value.
const fn flag(name: &'static str, does: &'static str) -> Choice {
    let value = None;
    Choice { name, value, does }
}

/// An option with a value.
const fn valued(name: &'static str, value: &'static str, does: &'static str) -> Choice {
    let value = Some(value);
    Choice { name, value, does }
}

pub static EXPLAIN: Choice = flag("--explain", "say in words what the answer means");
pub static NAMES: Choice = flag(
    "--names",
    "print the names that the text gives, not numbers",
);
pub static SORT: Choice = flag("--sort", "put RULEs, FAULTs and STARTs in order first");
pub static JSON: Choice = flag("--json", "answer in JSON, an object a line");
pub static QUIET: Choice = flag(
    "--quiet",
    "print no answer, only what went wrong; the status tells it",
);
pub static BOARD: Choice = valued(
    "--board",
    "LIST",
    "the board's choices, as 0,0,1 or '0 0 1'",
);
pub static PRESS: Choice = valued(
    "--press",
    "LIST",
    "the presses, as 0,1,0 or '0 1 0', or by name",
);
pub static NEW_TEST: Choice = valued(
    "--test",
    "LIST",
    "the presses of the test, as 0,1,0 or '0 1 0', or by name",
);
pub static AFTER: Choice = valued(
    "--after",
    "LIST",
    "go on after this board, which need not pass",
);
pub static DEPARTING: Choice = flag("--departing", "tell departing boards alone");
pub static COUNT: Choice = flag("--count", "tell how many there are, not each of them");
pub static STATE: Choice = valued(
    "--state",
    "FILE",
    "keep the state in this file, and go on where it left off",
);
pub static TEST: Choice = valued(
    "--test",
    "NUMBER",
    "tell where this test stands in the sheet, and its presses",
);
pub static OUTPUT: Choice = valued(
    "-o",
    "FILE",
    "write to this file, or into this folder; - is standard output",
);
pub static TEXT: Choice = flag("--text", "write the text form and not the bytes");
pub static TESTS: Choice = flag("--tests", "write the new TEST lines alone");
pub static MOST_BOARDS: Choice = valued("--most", "NUMBER", "tell at most so many boards");
pub static MOST: Choice = valued("--most", "NUMBER", "append at most so many tests");
pub static OUTPUTS: Choice = flag("--output", "another sound, the same next state");
pub static TRANSFERS: Choice = flag("--transfer", "the same sound, another next state");
pub static ALL: Choice = flag("--all", "any other sound and next state");
pub static UNSPECIFIED: Choice = flag("--unspecified", "draw the pairs without a RULE too");
pub static SVG: Choice = flag("--svg", "draw SVG and not DOT");
pub static TABLE: Choice = flag("--table", "a table of text: states by presses");
pub static MEALY: Choice = flag("--mealy", "a Mealy machine in DOT: an edge for each press");
