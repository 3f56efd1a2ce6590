//! What answers mean: which choices a board takes, how it sounds step by step, why a good answer is good.

use crate::columns::columns;
use crate::commands::commands;
use crate::machine::{Choice, Machine, OpenPair, Origin};
use crate::names::Names;
use crate::{Comparison, Failure, Refusal, Trial, Verdict, compare, run, test_part};
use std::collections::BTreeMap;

const COMPLETE: &str = "\
Every departing board fails some test. Whatever behaves as a board of this sheet and passes the list
gives every specified sound, on every list of fresh starts and presses.
";

const NOTHING_TO_FIND: &str = "\
The sheet has no FAULT and no START, so no board departs: every list is complete, one without tests too.
FAULTs and STARTs say what production may do wrong; with them there is something to find.
";

const CONFORMS: &str = "\
It conforms: it gives the specified sound on every sequence of presses that the specification defines.
";

const TOGETHER: &str = "\
On these sequences the specification and the board are in the following states together, and there each RULE
gives the sound that the board gives:
";

/// What a verdict means: how a survivor comes to its wrong sound, or what a complete list guarantees.
///
/// ```
/// use ranthelo::{Names, explain, judge};
///
/// let sheet = ranthelo::text::assemble(b"SIZE 1 1 2\n RULE 0 0 0 0")?;
/// let told = explain::verdict(&sheet, &judge(&sheet)?, &Names::default())?;
/// assert!(told.starts_with("The sheet has no FAULT and no START, so no board departs"));
/// # Ok::<(), Box<dyn std::error::Error>>(())
/// ```
pub fn verdict(sheet: &[u8], verdict: &Verdict, names: &Names) -> Result<String, Refusal> {
    let machine = Machine::of(sheet)?;
    let nothing = machine.faults.is_empty() && machine.starts.is_empty();
    match verdict {
        Verdict::Complete if nothing => Ok(NOTHING_TO_FIND.to_string()),
        Verdict::Complete => Ok(COMPLETE.to_string()),
        Verdict::Survivor {
            board: choices,
            sequence: presses,
        } => departure(sheet, choices, presses, names),
    }
}

/// What a comparison means: how a board comes to its wrong sound, or in which states one is that conforms.
pub fn comparison(
    sheet: &[u8],
    choices: &[u8],
    comparison: &Comparison,
    names: &Names,
) -> Result<String, Refusal> {
    match comparison {
        Comparison::Departs { sequence } => departure(sheet, choices, sequence, names),
        Comparison::Conforms => {
            let (board, together) = (
                board(sheet, choices, names)?,
                together(sheet, choices, names)?,
            );
            Ok(format!("{board}\n{CONFORMS}{TOGETHER}\n{together}"))
        }
    }
}

/// What a trial means: how a board comes to its first wrong sound, or whether the list misses something by letting it
/// pass.
pub fn trial(
    sheet: &[u8],
    choices: &[u8],
    trial: &Trial,
    names: &Names,
) -> Result<String, Refusal> {
    if let Some(Failure { test, position }) = trial.failure {
        let presses = presses(test_part(sheet, test)?);
        let until = presses.get(..=position).unwrap_or(&presses);
        return departure(sheet, choices, until, names);
    }
    let choices_told = board(sheet, choices, names)?;
    let passes = match Machine::of(sheet)?.tests.len() {
        0 => "The list has no test, so every board passes it.".to_string(),
        1 => "It gives the specified sounds in the one test.".to_string(),
        tests => format!("It gives the specified sounds in all {tests} tests."),
    };
    let told = match compare(sheet, choices)? {
        Comparison::Conforms => CONFORMS.to_string(),
        Comparison::Departs { sequence: presses } => {
            let steps = sequence(sheet, choices, &presses, names)?;
            format!("Yet it departs, which no test shows:\n\n{steps}")
        }
    };
    Ok(format!("{choices_told}\n{passes}\n{told}"))
}

/// The presses of PRESS commands.
fn presses(part: &[u8]) -> Vec<u8> {
    let operands = commands(part).flat_map(|command| command.operands());
    operands.copied().collect()
}

/// What a board's choices are, and how it sounds on a sequence.
fn departure(
    sheet: &[u8],
    choices: &[u8],
    presses: &[u8],
    names: &Names,
) -> Result<String, Refusal> {
    let board = board(sheet, choices, names)?;
    let steps = sequence(sheet, choices, presses, names)?;
    Ok(format!("{board}\n{steps}"))
}

/// What a choice does, beside what is specified.
fn choice(all: &[Choice], number: usize, names: &Names) -> String {
    let (chosen, rule) = (all[number], all[0]);
    let (does, specified) = (names.to(chosen.to), names.to(rule.to));
    match chosen.origin {
        Origin::Rule => format!("the RULE: {does}"),
        Origin::Fault => format!("a FAULT: {does}; the RULE: {specified}"),
        Origin::Unspecified => format!("{does}; no RULE"),
        Origin::Waking => {
            let (wakes, first) = (names.state(chosen.to.next), names.state(rule.to.next));
            format!("START: state {wakes}; specified: state {first}")
        }
    }
}

/// The open pairs at which a board takes another choice than 0, and what it does there; and a line for all others.
///
/// ```
/// use ranthelo::{Names, explain};
///
/// let sheet = ranthelo::text::assemble(b"SIZE 1 1 2\n RULE 0 0 0 0\n FAULT 0 0 1 0")?;
/// assert_eq!(
///     explain::board(&sheet, &[1], &Names::default())?,
///     "open pair 0, state 0, press 0: choice 1, a FAULT: sound 1, next state 0; the RULE: sound 0, next state 0\n",
/// );
/// assert_eq!(explain::board(&sheet, &[0], &Names::default())?, "the open pair: choice 0, as specified\n");
/// assert_eq!(explain::board(&sheet, &[2], &Names::default()).unwrap_err().number, 14);
/// # Ok::<(), Box<dyn std::error::Error>>(())
/// ```
pub fn board(sheet: &[u8], choices: &[u8], names: &Names) -> Result<String, Refusal> {
    run(sheet, choices, &[])?;
    let machine = Machine::of(sheet)?;
    let board = machine.with(choices).expect("the library took the board");
    let taken: Vec<(&OpenPair, usize)> = board.taken().collect();
    let others = taken.iter().filter(|(_, number)| *number == 0);
    let others: Vec<&OpenPair> = others.map(|(pair, _)| *pair).collect();
    let chosen = taken
        .iter()
        .enumerate()
        .filter(|(_, (_, number))| *number > 0);
    let lines = chosen.map(|(i, (pair, number))| {
        let (site, does) = (names.site(pair.site), choice(&pair.choices, *number, names));
        format!("open pair {i}, {site}: choice {number}, {does}\n")
    });
    Ok(lines.collect::<String>() + &rest(&others, taken.len(), names))
}

/// The line for the open pairs at which a board takes choice 0, of so many in all.
fn rest(pairs: &[&OpenPair], all: usize, names: &Names) -> String {
    let which = match (pairs.len(), all) {
        (_, 0) => {
            return "no open pair: the sheet has one board, which does as specified\n".to_string();
        }
        (0, _) => return String::new(),
        (1, 1) => "the open pair".to_string(),
        (1, _) => "the other open pair".to_string(),
        (some, all) if some == all => format!("all {all} open pairs"),
        (some, _) => format!("the other {some} open pairs"),
    };
    let unspecified = |pair: &&&OpenPair| pair.choices[0].origin == Origin::Unspecified;
    let free: Vec<&&OpenPair> = pairs.iter().filter(unspecified).collect();
    let Some(first) = free.first() else {
        return format!("{which}: choice 0, as specified\n");
    };
    let does = names.to(first.choices[0].to);
    match free.len() {
        some if some == pairs.len() => format!("{which}: choice 0, {does}; no RULE\n"),
        some => {
            format!("{which}: choice 0, as specified; without a RULE, at {some} of them, {does}\n")
        }
    }
}

/// A sequence of presses step by step: the states, the specified sounds and those that the board gives, as long as the
/// specification defines it. Both kinds of sounds are the library's: those specified are those of the board with
/// choices 0.
pub fn sequence(
    sheet: &[u8],
    choices: &[u8],
    presses: &[u8],
    names: &Names,
) -> Result<String, Refusal> {
    let given = run(sheet, choices, presses)?.sounds;
    let specified = run(sheet, &vec![0; choices.len()], presses)?.sounds;
    let machine = Machine::of(sheet)?;
    let board = machine.with(choices).expect("the library took the board");
    let step = |from: u8, to: u8, sound: u8| {
        let (from, to, sound) = (names.state(from), names.state(to), names.sound(sound));
        format!("{from} -> {to}, sound {sound}")
    };
    let mut rows = vec![
        ["position", "press", "specified", "given"]
            .map(String::from)
            .to_vec(),
    ];
    let (mut state, mut other) = (Some(0), board.wake().to.next);
    for (i, &press) in presses.iter().enumerate() {
        let does = board.step(other, press);
        let next = state.and_then(|state| machine.rules.get(&(state, press)).map(|to| to.next));
        let one = match (state, next) {
            (Some(state), Some(next)) => step(state, next, specified[i]),
            _ => "no RULE".to_string(),
        };
        let departs = next.is_some() && specified[i] != given[i];
        let pair = does.open_pair.map(|pair| format!("open pair {pair}"));
        let notes: Vec<String> = pair
            .into_iter()
            .chain(departs.then(|| "departs".to_string()))
            .collect();
        let two = step(other, does.to.next, given[i]);
        rows.push(vec![
            i.to_string(),
            names.press(press),
            one,
            two,
            notes.join(", "),
        ]);
        (state, other) = (next, does.to.next);
    }
    Ok(columns(&rows))
}

/// The states in which a board may be beside each specified one.
fn together(sheet: &[u8], choices: &[u8], names: &Names) -> Result<String, Refusal> {
    let machine = Machine::of(sheet)?;
    let board = machine.with(choices).expect("the library took the board");
    let mut met: BTreeMap<u8, Vec<u8>> = BTreeMap::new();
    let mut left = vec![(0, board.wake().to.next)];
    while let Some((state, other)) = left.pop() {
        let others = met.entry(state).or_default();
        if others.contains(&other) {
            continue;
        }
        others.push(other);
        for (&(_, press), to) in machine.rules.range((state, 0)..=(state, u8::MAX)) {
            left.push((to.next, board.step(other, press).to.next));
        }
    }
    let mut rows = vec![["specified", "board"].map(String::from).to_vec()];
    for (state, mut others) in met {
        others.sort();
        let others: Vec<String> = others.into_iter().map(|other| names.state(other)).collect();
        rows.push(vec![names.state(state), others.join(", ")]);
    }
    Ok(columns(&rows))
}
