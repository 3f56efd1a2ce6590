//! A table of text: a row for each state, a column for each press.

use super::{Line, Picture, Transition, at};
use crate::columns::columns;

/// The picture as a table. A cell has the sound and the next state of the RULE, and below it those of its FAULTs.
///
/// ```
/// use ranthelo::{Names, draw, machine::Machine};
///
/// let sheet = ranthelo::text::assemble(b"SIZE 2 2 2\n RULE 0 0 0 1\n RULE 0 1 1 0\n RULE 1 0 0 0\n FAULT 0 0 1 0")?;
/// let picture = draw::machine(&Machine::of(&sheet)?, &Names::default(), true);
/// assert_eq!(
///     draw::table(&picture),
///     "\
/// fresh start: state 0
///
/// state   press 0    press 1
/// 0       0 -> 1     1 -> 0
///         ! 1 -> 0
/// 1       0 -> 0     ?
///
/// sound -> next state; ! a FAULT; ? no RULE
/// ",
/// );
/// # Ok::<(), Box<dyn std::error::Error>>(())
/// ```
#[must_use]
pub fn table(picture: &Picture) -> String {
    let title = match picture.title.as_str() {
        "" => String::new(),
        title => format!("{title}\n\n"),
    };
    let presses = (0..picture.presses).map(|press| format!("press {}", picture.names.press(press)));
    let mut rows = vec![["state".to_string()].into_iter().chain(presses).collect()];
    for state in 0..picture.states {
        rows.extend(lines(picture, state));
    }
    let (wakings, rows, legend) = (wakings(picture), columns(&rows), legend(picture));
    format!("{title}fresh start: {wakings}\n\n{rows}\n{legend}\n")
}

/// The mark before what a line stands for.
fn mark(line: Line) -> &'static str {
    match line {
        Line::Rule => "",
        Line::Fault => "! ",
        Line::Unspecified => "? ",
        Line::Specified => "= ",
    }
}

fn wakings(picture: &Picture) -> String {
    let wakings = picture.wakings.iter().map(|waking| {
        let (mark, state) = (mark(waking.line), picture.names.state(waking.state));
        format!("{mark}state {state}")
    });
    wakings.collect::<Vec<_>>().join(", ")
}

/// The lines of a state: as many as its fullest cell has.
fn lines(picture: &Picture, state: u8) -> Vec<Vec<String>> {
    let cells: Vec<Vec<String>> = (0..picture.presses)
        .map(|press| cell(picture, state, press))
        .collect();
    let height = cells.iter().map(Vec::len).max().unwrap_or(0);
    let line = |i: usize| {
        let name = if i == 0 {
            picture.names.state(state)
        } else {
            String::new()
        };
        let cells = cells
            .iter()
            .map(|cell| cell.get(i).cloned().unwrap_or_default());
        [name].into_iter().chain(cells).collect()
    };
    (0..height).map(line).collect()
}

fn cell(picture: &Picture, state: u8, press: u8) -> Vec<String> {
    let here = |one: &&Transition| (one.state, one.press) == (state, press);
    let lines: Vec<String> = picture
        .transitions
        .iter()
        .filter(here)
        .map(|one| entry(picture, one))
        .collect();
    match lines.as_slice() {
        [] => vec!["?".to_string()],
        _ => lines,
    }
}

/// `! 0 -> 1 at 2`
fn entry(picture: &Picture, one: &Transition) -> String {
    let names = &picture.names;
    let to = one.to.map_or(String::new(), |to| {
        format!("{} -> {}", names.sound(to.sound), names.state(to.next))
    });
    let entry = mark(one.line).to_string() + &to + &at(&one.positions);
    entry.trim_end().to_string()
}

/// What the marks that occur mean.
fn legend(picture: &Picture) -> String {
    let transitions = |line| picture.transitions.iter().any(|one| one.line == line);
    let wakings = |line| picture.wakings.iter().any(|waking| waking.line == line);
    let pairs = usize::from(picture.states) * usize::from(picture.presses);
    let shown = picture.transitions.iter();
    let shown = shown.filter(|one| matches!(one.line, Line::Rule | Line::Specified));
    let fault = match (transitions(Line::Fault), wakings(Line::Fault)) {
        (false, false) => None,
        (true, false) => Some("! a FAULT"),
        (false, true) => Some("! a START"),
        (true, true) => Some("! a FAULT or a START"),
    };
    let specified = transitions(Line::Specified) || wakings(Line::Specified);
    let marked = picture.wakings.iter().any(|waking| waking.marked);
    let parts = [
        Some("sound -> next state"),
        fault,
        specified.then_some("= what is specified there"),
        (shown.count() < pairs).then_some("? no RULE"),
        marked.then_some("at a position of the departing sequence"),
    ];
    parts.into_iter().flatten().collect::<Vec<_>>().join("; ")
}
