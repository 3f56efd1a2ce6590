//! The words: what each takes, what it is for, and which function does it.

mod boards;
mod joining;
mod judging;
mod options;
mod recording;
mod renumbering;
mod rows;
mod sheets;
mod showing;
mod stations;
mod telling;
mod trays;
mod walking;

use super::table::{Choice, Does, Takes, Word};

pub use options::*;

const SHEETS: Takes = Takes::piped(&["SHEET"]).several();
const SHEET: Takes = Takes::piped(&["SHEET"]).gathering();

/// A word that answers on each of its sheets.
const fn answering(
    name: &'static str,
    purpose: &'static str,
    options: &'static [&'static Choice],
    does: Does,
    details: &'static str,
) -> Word {
    Word {
        name,
        purpose,
        takes: SHEETS,
        options,
        needs: &[],
        details,
        does,
    }
}

pub static WORDS: &[Word] = &[
    answering(
        "judge",
        "whether the list of tests is complete, or which board survives it",
        &[&EXPLAIN, &NAMES, &SORT, &JSON, &QUIET],
        Does::Answers(judging::judge),
        "\
Prints what the program judge prints: complete; or survivor, the board and the presses of its shortest departing
sequence, which is the test to add; or refused with number and place. Status 0, 1 or 2.",
    ),
    Word {
        name: "make",
        purpose: "the sheet with its list made complete",
        takes: SHEET,
        options: &[&OUTPUT, &TEXT, &TESTS, &MOST, &SORT, &JSON, &QUIET],
        needs: &[],
        details: "\
Writes the sheet with tests after its own: while the list is incomplete, the departing sequence that judge tells is
appended. With --text a text stays as it is, comments too, and the new lines follow; with --tests these lines are all.
How many there were is told on standard error. Status 0; 1 if --most tests were appended and the list is not complete
yet; 2 if the sheet is refused, or if the next test does not fit: then nothing is written.",
        does: Does::Writes(judging::make),
    },
    answering(
        "read",
        "the figures of a sheet, or why it is refused",
        &[&TEST, &NAMES, &SORT, &JSON, &QUIET],
        Does::Answers(sheets::read),
        "\
Prints the numbers of states, presses, sounds, RULEs, FAULTs, TESTs and open pairs. Status 0, or 2 if the sheet is
refused.",
    ),
    Word {
        needs: &[&BOARD, &PRESS],
        ..answering(
            "run",
            "the sounds of a board on presses",
            &[&BOARD, &PRESS, &NAMES, &SORT, &JSON, &QUIET],
            Does::Answers(boards::run),
            "\
Prints one sound for each press, and which open pairs were used, by their numbers. The presses need not be defined.",
        )
    },
    Word {
        needs: &[&BOARD],
        ..answering(
            "first-failed",
            "the first test that a board fails",
            &[&BOARD, &EXPLAIN, &SORT, &JSON, &QUIET],
            Does::Answers(boards::first_failed),
            "\
Prints passes, or fails with the test and the position of its first wrong sound, both from 0; and which open pairs were
used until then. Status 0 or 1.",
        )
    },
    Word {
        needs: &[&BOARD],
        ..answering(
            "compare",
            "whether a board conforms, or its shortest departing sequence",
            &[&BOARD, &EXPLAIN, &NAMES, &SORT, &JSON, &QUIET],
            Does::Answers(boards::compare),
            "Prints conforms, or departs and the presses of the shortest departing sequence. Status 0 or 1.",
        )
    },
    Word {
        name: "walk",
        purpose: "every board that passes the list, and whether it conforms",
        takes: SHEET,
        options: &[&AFTER, &MOST_BOARDS, &DEPARTING, &COUNT, &NAMES, &SORT, &JSON, &QUIET],
        needs: &[],
        details: "\
Prints a line for each board in dictionary order, as it is found: board, its choices, and conforms, or departs and the
presses of its shortest departing sequence; then end, or more if --most boards were told and others are left. With
--count how many pass, conform and depart; of a whole walk also the mutation score: of the departing boards those that
fail the list, and how many depart. Status 0; 1 if a departing board was met; 2.",
        does: Does::Performs(walking::walk),
    },
    Word {
        name: "tray",
        purpose: "the first failed test of each of many boards",
        takes: Takes::piped(&["SHEET", "BOARDS"]).gathering(),
        options: &[&SORT, &JSON, &QUIET],
        needs: &[],
        details: "\
BOARDS has a board a line, as 0 1 or 0,1, or as walk prints them; # begins a comment. Prints a line for each board:
board, its choices, and passes, or fails and the test. Status 0; 1 if one fails; 2.",
        does: Does::Performs(trays::tray),
    },
    Word {
        name: "add",
        purpose: "the sheet with one test more",
        takes: SHEET,
        options: &[&NEW_TEST, &OUTPUT, &TEXT, &SORT, &JSON],
        needs: &[&NEW_TEST],
        details: "\
Writes the sheet with the test after its own. With --text a text stays as it is, comments too, and the new line follows.
Status 0 or 2.",
        does: Does::Writes(walking::add),
    },
    Word {
        name: "log",
        purpose: "whether a lock's record is as specified, and whether some board gives it",
        takes: Takes::piped(&["SHEET", "RECORD"]).gathering(),
        options: &[&EXPLAIN, &SORT, &JSON, &QUIET],
        needs: &[],
        details: "\
RECORD is bytes, 10 for a fresh start and 11 x o for a press and its sound, or a text: PULSE 0/0 1/1 with presses and
sounds, and SEEN 0 1 for one of them on a line of its own; presses and sounds may be names of the sheet's text. Prints
differs and the place of the first sound that is not the specified one, or as specified; and given by a board, or given
by no board. With --explain the pulse, the position and the line, and the first board that gives the record. Status 0; 1
if it differs or no board gives it; 2.",
        does: Does::Performs(recording::log),
    },
    Word {
        name: "merge",
        purpose: "one sheet from two of the same machine",
        takes: Takes::these(&["FIRST", "SECOND"]),
        options: &[&OUTPUT, &TEXT, &SORT, &JSON],
        needs: &[],
        details: "\
Writes the sheet with the FAULTs and STARTs of both, each once, and the first sheet's tests followed by the second's.
With --text the first text stays as it is, comments too, and the lines of the second are put in. Status 0 or 2.",
        does: Does::Performs(joining::merge),
    },
    Word {
        name: "renumber",
        purpose: "the sheet with its states in first-reached order",
        takes: SHEET,
        options: &[&OUTPUT, &TEXT, &SORT, &JSON],
        needs: &[],
        details: "\
Writes the sheet with states numbered as breadth-first search meets them, from state 0, presses ascending, by RULEs
alone. Names go with their states. Status 0 or 2.",
        does: Does::Writes(renumbering::renumber),
    },
    Word {
        name: "same",
        purpose: "whether two sheets are one with states renamed",
        takes: Takes::these(&["FIRST", "SECOND"]),
        options: &[&SORT, &JSON, &QUIET],
        needs: &[],
        details: "Prints same or different. Status 0 or 1; 2 if one of them is refused.",
        does: Does::Performs(renumbering::same),
    },
    Word {
        name: "station",
        purpose: "drives a lock through a complete list",
        takes: Takes::these(&["SHEET"]),
        options: &[&STATE, &NAMES, &SORT, &JSON],
        needs: &[],
        details: "\
Reads lines from standard input and answers each with a line. next: pulse, press X, pass, or fails test T position P.
sound O: taken, fails .., or refused .. and why. sheet FILE: taken, and the station goes on with that sheet at the same
press, or refused ... With --state it goes on where it was stopped, with the sheet that it had. --json makes objects of
the answers; what is read stays lines. Status 0 if the lock passes, 1 if it fails, 2 if the sheet is refused, 3 if the
input ends before the verdict.",
        does: Does::Performs(stations::station),
    },
    Word {
        name: "lock",
        purpose: "a board that answers a station, for a bench without a lock",
        takes: Takes::these(&["SHEET"]),
        options: &[&BOARD, &NAMES, &SORT, &JSON],
        needs: &[&BOARD],
        details: "\
Prints next, then answers each line of standard input: pulse and taken with next, press X with the sound that the board
gives. It ends at pass or fails. Joined to a station by two pipes both end with the verdict: status 0, or 1 for a
failure. --json makes objects of its answers, for a program that stands between; what is read stays lines.",
        does: Does::Performs(stations::lock),
    },
    Word {
        name: "assemble",
        purpose: "the bytes of a sheet's text form",
        takes: SHEET,
        options: &[&OUTPUT, &SORT, &JSON],
        needs: &[],
        details: "\
Writes the bytes that the text spells. Mistakes in the text are told by their lines, with status 3. If reading refuses
the sheet, its bytes are written all the same; the refusal is told, with status 2.

One command a line: SIZE n k m, QUIET, RULE s x o t, FAULT s x o t, START t, TEST x x .. with the presses of the test.
END is added. # begins a comment. HEX 07 1f spells any bytes; after a last line END or HEX no END is added. STATES,
PRESSES and SOUNDS with as many names as SIZE says give names, which may then stand for the numbers.",
        does: Does::Writes(sheets::assemble),
    },
    Word {
        name: "write",
        purpose: "a sheet from its tables, written by the library",
        takes: SHEET,
        options: &[&OUTPUT, &TEXT, &SORT, &JSON],
        needs: &[],
        details: "\
Takes the sizes, RULEs, FAULTs, STARTs and tests of the sheet, in either form, and has the library write the sheet from
these tables. Nothing is written that reading refuses; such a refusal has place 0. Status 0 or 2.",
        does: Does::Writes(sheets::write),
    },
    Word {
        name: "generate",
        purpose: "the sheet of a seed",
        takes: Takes::these(&["SEED", "STATES", "PRESSES", "SOUNDS"]),
        options: &[&OUTPUT, &TEXT, &JSON],
        needs: &[],
        details: "Writes a sheet without tests, the same bytes for the same numbers everywhere. Status 0 or 2.",
        does: Does::Performs(sheets::generate),
    },
    Word {
        name: "faults",
        purpose: "the FAULT lines of a fault model",
        takes: SHEET,
        options: &[&OUTPUTS, &TRANSFERS, &ALL, &OUTPUT, &SORT, &JSON],
        needs: &[],
        details: "\
Writes a FAULT line for each RULE and each way to differ from it that the options name, but for those that the sheet
has. Put them into the text and give --sort. A sheet has at most 256 FAULTs and 32 open pairs. Status 0 or 2.",
        does: Does::Writes(rows::faults),
    },
    Word {
        name: "import",
        purpose: "the text of a machine in DOT or KISS2",
        takes: Takes::piped(&["FILE"]).gathering(),
        options: &[&OUTPUT, &JSON],
        needs: &[],
        details: "\
Takes a Mealy machine in Graphviz's DOT (s0 -> s1 [label=\"a/0\"], with __start0 -> s0 before the first state) or in
KISS2, and writes its text, with the names of its states, presses and sounds. The first state gets number 0, the others
as they are met. In KISS2 a - in the inputs stands for 0 and 1, and what leads to * has no RULE. Status 0; 2 if reading
refuses the sheet, which is written all the same; 3 if the file can't be taken for a machine.",
        does: Does::Writes(rows::import),
    },
    answering(
        "list",
        "every command with offset, bytes and words; open pairs and choices",
        &[&TEXT, &SORT, &JSON, &QUIET],
        Does::Answers(showing::list),
        "\
Lists any bytes. In a refused sheet the refused place is marked with >, and the line below says why. With --text: the
text form alone. Status 0, or 2 if the sheet is refused.",
    ),
    Word {
        name: "draw",
        purpose: "a picture: Graphviz's DOT, SVG, or a table",
        takes: SHEET,
        options: &[&BOARD, &UNSPECIFIED, &SVG, &TABLE, &MEALY, &OUTPUT, &SORT, &JSON],
        needs: &[],
        details: "\
Draws the machine: RULEs solid, FAULTs and STARTs dashed, arrows labelled press/sound. With --board that board, with its
departing sequence thick and red, each press with its positions, and with what is specified in grey beside each fault.

--table writes states by presses, each cell with sound and next state and with its faults: also for machines that are
too large for a picture. --mealy writes the specified machine, or the board, as learners read and write them. --json has
the transitions, and the picture as a text.",
        does: Does::Writes(showing::draw),
    },
    Word {
        name: "help",
        purpose: "what there is to say of a word",
        takes: Takes {
            least: 0,
            ..Takes::these(&["WORD"])
        },
        options: &[],
        needs: &[],
        details: "Prints what the word does, its arguments and options; without a word, the list of all.",
        does: Does::Performs(telling::help),
    },
    Word {
        name: "completion",
        purpose: "what a shell needs to complete words and options",
        takes: Takes::these(&["SHELL"]),
        options: &[],
        needs: &[],
        details: "\
Prints a script for bash, zsh or fish:
  eval \"$(ranthelo completion bash)\"
  ranthelo completion zsh > \"${fpath[1]}/_ranthelo\"
  ranthelo completion fish > ~/.config/fish/completions/ranthelo.fish",
        does: Does::Performs(telling::completion),
    },
    Word {
        name: "man",
        purpose: "the page of the manual",
        takes: Takes::these(&[]),
        options: &[],
        needs: &[],
        details: "Prints the page for man: ranthelo man > ranthelo.1; man ./ranthelo.1",
        does: Does::Performs(telling::man),
    },
];

/// A line of the output: a name and numbers.
fn fields<T: std::fmt::Display>(name: &str, numbers: impl IntoIterator<Item = T>) -> String {
    let fields = numbers.into_iter().map(|number| format!(" {number}"));
    format!("{name}{}\n", fields.collect::<String>())
}
