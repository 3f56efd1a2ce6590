//! Why two sheets do not go together.

use super::many;
use crate::machine::{Machine, Pair, Site};
use crate::{MOST_BYTES, MOST_FAULTS, MOST_OPEN_PAIRS, MOST_TESTS, Names};
use std::collections::BTreeSet;

/// Where two machines differ: in their sizes, in being quiet, or at which pair.
fn difference(one: &Machine, two: &Machine, names: &Names) -> Option<String> {
    let size = |machine: &Machine| {
        format!(
            "SIZE {} {} {}",
            machine.states, machine.presses, machine.sounds
        )
    };
    if size(one) != size(two) {
        return Some(format!("{} and {}", size(one), size(two)));
    }
    if one.quiet != two.quiet {
        let which = if one.quiet { "first" } else { "second" };
        return Some(format!("only the {which} sheet has QUIET"));
    }
    let pairs: BTreeSet<&Pair> = one.rules.keys().chain(two.rules.keys()).collect();
    let pair = pairs
        .into_iter()
        .find(|pair| one.rules.get(pair) != two.rules.get(pair))?;
    let at = |machine: &Machine| {
        let rule = machine.rules.get(pair);
        rule.map_or("no RULE".to_string(), |&to| names.to(to))
    };
    Some(format!(
        "the RULEs differ at {}: {} and {}",
        names.site(Site::Pair(*pair)),
        at(one),
        at(two)
    ))
}

/// Why two sheets are not merged.
pub fn merged(one: &Machine, other: &[u8], number: usize, names: &Names) -> Option<String> {
    let two = Machine::of(other).ok()?;
    match number {
        21 => difference(one, &two, names),
        8 => {
            let all = one
                .faults
                .iter()
                .chain(&two.faults)
                .flat_map(|(pair, list)| list.iter().map(move |to| (pair, to)));
            let faults = all.collect::<BTreeSet<_>>().len();
            let tests = one.tests.len() + two.tests.len();
            Some(match faults > MOST_FAULTS {
                true => format!("{faults} FAULTs, over {MOST_FAULTS}"),
                false => format!("{tests} tests, over {MOST_TESTS}"),
            })
        }
        12 => Some(format!("over {MOST_OPEN_PAIRS} open pairs")),
        1 => Some(format!("over {MOST_BYTES} bytes")),
        _ => None,
    }
}

/// Why a station does not go on with a changed sheet.
pub fn changed(
    before: &[u8],
    changed: &Machine,
    begun: usize,
    over: bool,
    names: &Names,
) -> Option<String> {
    if over {
        return Some("the verdict is given".to_string());
    }
    let before = Machine::of(before).ok()?;
    if let Some(difference) = difference(&before, changed, names) {
        return Some(difference);
    }
    let mut tests = (0..before.tests.len()).take(begun);
    let differs = tests.find(|&test| before.tests.get(test) != changed.tests.get(test))?;
    let begun = many(begun, "test");
    Some(match changed.tests.get(differs) {
        None => format!("{begun} begun, and the changed sheet has no test {differs}"),
        Some(_) => format!("{begun} begun, and test {differs} is another"),
    })
}
