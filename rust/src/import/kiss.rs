//! KISS2: `.i 2`, `.r st0`, then lines of input, state, next state and output.

use super::{Found, Transition};
use crate::text::Mistake;

/// Up to so many bits every combination of inputs is a press.
const MOST_BITS: usize = 4;

/// A line: its number, the input, the state, the next state and the output.
struct Row<'a> {
    line: usize,
    words: [&'a str; 4],
}

/// Takes a machine from KISS2.
pub fn read(text: &str) -> Result<Found, Vec<Mistake>> {
    let (mut found, mut rows, mut wrong) = (Found::default(), Vec::new(), Vec::new());
    for (i, line) in text.lines().enumerate() {
        let words: Vec<&str> = line
            .split('#')
            .next()
            .unwrap_or("")
            .split_whitespace()
            .collect();
        let line = i + 1;
        match words[..] {
            [] => {}
            [".e" | ".end", ..] => break,
            [".r", state] => found.start = Some(state.to_string()),
            [first, ..] if first.starts_with('.') => {}
            [input, from, to, output] => {
                let words = [input, from, to, output];
                rows.push(Row { line, words });
            }
            _ => {
                let what = format!(
                    "a line has input, state, next state and output, not {} words",
                    words.len()
                );
                wrong.push(Mistake::new(line, what));
            }
        }
    }
    if !wrong.is_empty() {
        return Err(wrong);
    }
    transitions(&mut found, &rows)?;
    Ok(found)
}

/// Whether a word stands for any state, or for none in particular.
fn is_any(state: &str) -> bool {
    ["*", "-"].contains(&state)
}

fn transitions(found: &mut Found, rows: &[Row]) -> Result<(), Vec<Mistake>> {
    for row in rows {
        for state in [row.words[1], row.words[2]]
            .into_iter()
            .filter(|state| !is_any(state))
        {
            found.meet(row.line, state);
        }
    }
    if let Some(start) = found.start.clone() {
        found.meet(1, &start);
    }
    let states: Vec<String> = found.states.iter().map(|(_, name)| name.clone()).collect();
    let patterns: Vec<&str> = rows.iter().map(|row| row.words[0]).collect();
    let inputs = Inputs::of(&patterns, rows)?;
    found.inputs = inputs.all();
    for Row {
        line,
        words: [input, from, to, output],
    } in rows
    {
        if is_any(to) {
            continue;
        }
        let from = if is_any(from) {
            states.clone()
        } else {
            vec![from.to_string()]
        };
        for from in from {
            found
                .transitions
                .extend(inputs.met(input).map(|input| Transition {
                    line: *line,
                    from: from.clone(),
                    to: to.to_string(),
                    input,
                    output: output.to_string(),
                    fault: false,
                }));
        }
    }
    Ok(())
}

/// What the inputs of a file are.
enum Inputs {
    /// Every combination of so many bits.
    Bits(usize),
    /// Words.
    Words,
}

impl Inputs {
    fn of(patterns: &[&str], rows: &[Row]) -> Result<Self, Vec<Mistake>> {
        let width = patterns.first().map_or(0, |pattern| pattern.len());
        let bits = |pattern: &&str| pattern.bytes().all(|bit| b"01-".contains(&bit));
        if !patterns
            .iter()
            .all(|pattern| bits(pattern) && pattern.len() == width)
        {
            return Ok(Inputs::Words);
        }
        if width <= MOST_BITS {
            return Ok(Inputs::Bits(width));
        }
        for (i, row) in rows.iter().enumerate() {
            let overlaps = |other: &&str| *other != row.words[0] && overlap(other, row.words[0]);
            if let Some(other) = patterns[..i].iter().find(|other| overlaps(other)) {
                let what = format!(
                    "the inputs {other} and {} overlap, and have over {MOST_BITS} bits",
                    row.words[0]
                );
                return Err(vec![Mistake::new(row.line, what)]);
            }
        }
        Ok(Inputs::Words)
    }

    /// All inputs, where they are known apart from the lines.
    fn all(&self) -> Vec<String> {
        match *self {
            Inputs::Bits(0) | Inputs::Words => Vec::new(),
            Inputs::Bits(width) => (0..1_usize << width)
                .map(|number| format!("{number:0width$b}"))
                .collect(),
        }
    }

    /// The inputs that a pattern stands for.
    fn met(&self, pattern: &str) -> impl Iterator<Item = String> {
        let all = match self {
            Inputs::Bits(_) => self.all(),
            Inputs::Words => vec![pattern.to_string()],
        };
        let pattern = pattern.to_string();
        all.into_iter()
            .filter(move |input| *input == pattern || overlap(input, &pattern))
    }
}

/// Whether some input is one of both patterns.
fn overlap(one: &str, two: &str) -> bool {
    one.len() == two.len()
        && one
            .bytes()
            .zip(two.bytes())
            .all(|(a, b)| a == b || a == b'-' || b == b'-')
}
