//! Answers in words. What is said to be refused, sounded or departing, the library said; this module says where and
//! how.

mod answers;

use crate::commands::{Command, FAULT, PRESS, RULE, START, TEST, commands};
use crate::machine::{Machine, Site};
use crate::names::Names;
use crate::text::{spelled, words};
use crate::{MOST_OPEN_PAIRS, Refusal, meaning, read};

pub use answers::{board, comparison, sequence, trial, verdict};

/// Why reading refuses a sheet, with what the number means at its place. For other numbers their meaning alone.
///
/// ```
/// let sheet = [1, 2, 1, 1, 2, 0, 3, 0, 1, 6];
/// let refusal = ranthelo::read(&sheet).unwrap_err();
/// assert_eq!(ranthelo::explain::reason(&sheet, refusal), "press 3 is not below 1");
/// ```
#[must_use]
pub fn reason(sheet: &[u8], refusal: Refusal) -> String {
    reason_named(sheet, refusal, &Names::NUMBERS)
}

/// The same with names.
#[must_use]
pub fn reason_named(sheet: &[u8], refusal: Refusal, names: &Names) -> String {
    let Refusal { number, place } = refusal;
    let command = commands(sheet).find(|command| command.place == place);
    let detail = match (number, command) {
        _ if read(sheet) != Err(refusal) => None,
        (1, _) => Some("over 16,384 bytes".to_string()),
        (2, None) => Some("the sheet ends without END".to_string()),
        (2..=12, Some(command)) => command_reason(sheet, number, command, names),
        _ => None,
    };
    let general = || meaning(number).unwrap_or("unknown number").to_string();
    detail.unwrap_or_else(general)
}

/// Why reading refuses a command with a number from 2 to 12.
fn command_reason(sheet: &[u8], number: usize, command: Command, names: &Names) -> Option<String> {
    let before = Machine::before(sheet, command.place);
    match number {
        2 => cut(command),
        3 => Some(misplaced(sheet, command)),
        4 => wrong_sizes(command),
        5 => out_of_range(&before, command),
        6 => not_ascending(sheet, command),
        7 => wrong_alternative(&before, command, names),
        8 => one_too_many(&before, command),
        9 => undefined_press(&before, command, names),
        10 => Some(format!("byte {} follows END", spelled(&command.bytes[..1]))),
        11 => unreached(&before, names),
        12 => {
            let open = before.open_pairs().len();
            Some(format!("{open} open pairs, over {MOST_OPEN_PAIRS}"))
        }
        _ => None,
    }
}

fn cut(command: Command) -> Option<String> {
    let (kind, there) = (command.kind()?, command.operands().len());
    let (word, due) = (kind.word, kind.operands.len());
    Some(format!(
        "operands of {word} are missing: {there} of {due} are there"
    ))
}

fn misplaced(sheet: &[u8], command: Command) -> String {
    let Some(kind) = command.kind() else {
        return format!("{} is no command byte", spelled(command.bytes));
    };
    let last = commands(sheet)
        .take_while(|other| other.place < command.place)
        .last();
    match last.and_then(Command::kind) {
        Some(last) => format!("{} can't follow {}", kind.word, last.word),
        None => format!("{} can't stand before SIZE", kind.word),
    }
}

/// The operands with what they are, and those of them that are wrong.
fn wrong_operands(command: Command, wrong: impl Fn(usize, u8) -> Option<String>) -> Option<String> {
    let names = command.kind()?.operands;
    let told: Vec<String> = names
        .iter()
        .zip(command.operands())
        .enumerate()
        .filter_map(|(i, (name, &value))| Some(format!("{name} {value} {}", wrong(i, value)?)))
        .collect();
    (!told.is_empty()).then(|| told.join(", "))
}

fn wrong_sizes(command: Command) -> Option<String> {
    wrong_operands(command, |_, value| {
        (!(1..=16).contains(&value)).then(|| "is not 1 to 16".to_string())
    })
}

fn out_of_range(before: &Machine, command: Command) -> Option<String> {
    let (n, k, m) = (before.states, before.presses, before.sounds);
    let bounds: &[u8] = match command.byte() {
        RULE | FAULT => &[n, k, m, n],
        PRESS => &[k],
        START => &[n],
        _ => return None,
    };
    wrong_operands(command, |i, value| {
        (value >= bounds[i]).then(|| format!("is not below {}", bounds[i]))
    })
}

fn not_ascending(sheet: &[u8], command: Command) -> Option<String> {
    let last = commands(sheet)
        .take_while(|other| other.place < command.place)
        .last()?;
    Some(format!("it does not ascend after {}", words(last)))
}

fn wrong_alternative(before: &Machine, command: Command, names: &Names) -> Option<String> {
    match *command.operands() {
        [s, x, _, _] if before.rules.contains_key(&(s, x)) => Some(format!(
            "it equals the RULE at {}",
            names.site(Site::Pair((s, x)))
        )),
        [s, x, _, _] => Some(format!("no RULE at {}", names.site(Site::Pair((s, x))))),
        _ => Some(format!("every board may wake in state {}", names.state(0))),
    }
}

fn one_too_many(before: &Machine, command: Command) -> Option<String> {
    let (there, kind) = match command.byte() {
        FAULT => (before.faults.values().map(Vec::len).sum(), "FAULTs"),
        TEST => (before.tests.len(), "TESTs"),
        PRESS => (before.tests.last()?.len(), "PRESSes of its test"),
        _ => return None,
    };
    Some(format!("{there} {kind} stand before it"))
}

fn undefined_press(before: &Machine, command: Command, names: &Names) -> Option<String> {
    let state = before.reached(before.tests.last()?)?;
    let &[press] = command.operands() else {
        return None;
    };
    let (state, press) = (names.state(state), names.press(press));
    Some(format!(
        "the test has reached state {state}, which has no RULE for press {press}"
    ))
}

fn unreached(before: &Machine, names: &Names) -> Option<String> {
    let mut reached = vec![0];
    let mut next = 0;
    while let Some(&state) = reached.get(next) {
        for (_, to) in before.rules.range((state, 0)..=(state, u8::MAX)) {
            if !reached.contains(&to.next) {
                reached.push(to.next);
            }
        }
        next += 1;
    }
    let missing = (0..before.states).filter(|state| !reached.contains(state));
    let missing: Vec<String> = missing.map(|state| names.state(state)).collect();
    match missing.as_slice() {
        [] => None,
        [one] => Some(format!("state {one} can't be reached by RULEs")),
        all => Some(format!(
            "states {} can't be reached by RULEs",
            all.join(", ")
        )),
    }
}
