//! A sheet command by command, accepted or not.

use crate::commands::{Command, FAULT, PRESS, QUIET, RULE, SIZE, START, TEST, commands};
use crate::explain::reason;
use crate::machine::{Machine, Move, OpenPair, Origin, Site};
use crate::names::Names;
use crate::text::{spelled, words};
use crate::{Refusal, read};
use std::ops::Range;

/// Each command with its offset, bytes and words. Of an accepted sheet then the open pairs and their choices; of a
/// refused one the refused place is marked with `>`, and the line below it says why.
///
/// ```
/// let listing = ranthelo::list::list(&[1, 1, 1, 1, 9]);
/// assert_eq!(
///     listing,
///     "      0  01 01 01 01     SIZE 1 1 1          1 state, 1 press, 1 sound
/// >     4  09              HEX 09
///          refused 3: 09 is no command byte
/// ",
/// );
/// ```
#[must_use]
pub fn list(sheet: &[u8]) -> String {
    named(sheet, &Names::NUMBERS)
}

/// The same with names in what it says beside the commands.
#[must_use]
pub fn named(sheet: &[u8], names: &Names) -> String {
    match read(sheet) {
        Ok(_) => {
            let machine = Machine::before(sheet, sheet.len());
            let pairs = machine.open_pairs();
            let pairs = pairs.iter().enumerate();
            let pairs = pairs.map(|(i, pair)| open_pair(i, pair, names));
            understood(sheet, sheet.len(), names) + &pairs.collect::<String>()
        }
        Err(refusal) => refused(sheet, refusal, names),
    }
}

/// A line of the listing: a mark, an offset, bytes, words and what they mean.
fn line(mark: char, place: usize, bytes: &[u8], words: &str, meaning: &str) -> String {
    let bytes = spelled(bytes);
    let line = format!("{mark}{place:>6}  {bytes:<14}  {words:<18}  {meaning}");
    line.trim_end().to_string() + "\n"
}

/// The commands before a place up to which the sheet is read.
fn understood(sheet: &[u8], place: usize, names: &Names) -> String {
    let machine = Machine::before(sheet, place);
    let (mut test, mut state) = (0, 0);
    let mut lines = String::new();
    for command in commands(sheet).take_while(|command| command.place < place) {
        let mut meaning = meaning(command, names);
        match (command.byte(), command.operands()) {
            (TEST, _) => {
                meaning = format!("test {test}");
                (test, state) = (test + 1, 0);
            }
            (PRESS, &[press]) => {
                if let Some(&Move { sound, next }) = machine.rules.get(&(state, press)) {
                    let (from, to) = (names.state(state), names.state(next));
                    meaning = format!("{from} -> {to}, sound {}", names.sound(sound));
                    state = next;
                }
            }
            _ => {}
        }
        let words = words(command);
        lines += &line(' ', command.place, command.bytes, &words, &meaning);
    }
    lines
}

/// What a command outside the tests means.
fn meaning(command: Command, names: &Names) -> String {
    match (command.byte(), command.operands()) {
        (SIZE, &[n, k, m]) => {
            let (n, k, m) = (many(n, "state"), many(k, "press"), many(m, "sound"));
            format!("{n}, {k}, {m}")
        }
        (RULE | FAULT, &[s, x, sound, next]) => {
            let (site, to) = (names.site(Site::Pair((s, x))), Move { sound, next });
            format!("{site}: {}", names.to(to))
        }
        (START, &[t]) => format!("a board may wake in state {}", names.state(t)),
        (QUIET, _) => format!(
            "a press without a RULE gives sound {} and stays",
            names.sound(0)
        ),
        _ => String::new(),
    }
}

fn many(number: u8, thing: &str) -> String {
    match (number, thing) {
        (1, _) => format!("1 {thing}"),
        (_, "press") => format!("{number} presses"),
        _ => format!("{number} {thing}s"),
    }
}

/// The commands up to the refused place, that place with its mark and the reason, and the rest in words alone. Of a
/// sheet that is too long no command has been looked at; it is shown as far as a sheet may go.
fn refused(sheet: &[u8], refusal: Refusal, names: &Names) -> String {
    let Refusal { number, place } = refusal;
    let marked = marked(sheet, refusal);
    match number {
        1 => in_words(sheet, 0..place) + &marked,
        _ => understood(sheet, place, names) + &marked + &in_words(sheet, place + 1..sheet.len()),
    }
}

/// The refused place, with its mark, and why it is refused.
#[must_use]
pub fn marked(sheet: &[u8], refusal: Refusal) -> String {
    let Refusal { number, place } = refusal;
    let command = commands(sheet).find(|command| command.place == place && number != 1);
    let marked = match command {
        Some(command) => line('>', place, command.bytes, &words(command), ""),
        None => line('>', place, &[], "", ""),
    };
    marked + &format!("         refused {number}: {}\n", reason(sheet, refusal))
}

/// The commands that begin in a part of the sheet.
fn in_words(sheet: &[u8], part: Range<usize>) -> String {
    let inside = commands(sheet).filter(|command| part.contains(&command.place));
    inside
        .map(|command| line(' ', command.place, command.bytes, &words(command), ""))
        .collect()
}

/// An open pair with its choices by number.
fn open_pair(number: usize, pair: &OpenPair, names: &Names) -> String {
    let count = pair.choices.len();
    let mut lines = format!(
        "open pair {number}: {}, {count} choices\n",
        names.site(pair.site)
    );
    if pair.choices[0].origin == Origin::Unspecified {
        return lines + &unspecified(pair, names);
    }
    for (i, choice) in pair.choices.iter().enumerate() {
        let does = match choice.origin {
            Origin::Rule => format!("RULE   {}", names.to(choice.to)),
            Origin::Fault => format!("FAULT  {}", names.to(choice.to)),
            _ => format!("state {}", names.state(choice.to.next)),
        };
        lines += &format!("{i:>7}  {does}\n");
    }
    lines
}

/// The choices at a pair without a RULE, a line for each sound.
fn unspecified(pair: &OpenPair, names: &Names) -> String {
    let lines = pair
        .choices
        .chunk_by(|a, b| a.to.sound == b.to.sound)
        .scan(0, |first, choices| {
            let start = *first;
            *first += choices.len();
            let (sound, last) = (choices[0].to.sound, choices.len() - 1);
            let (sound, end) = (names.sound(sound), start + last);
            let [first, last] = [0, last as u8].map(|state| names.state(state));
            let states = format!("next state {first} to {last}");
            Some(format!("{start:>7} to {end}  sound {sound}, {states}\n"))
        });
    lines.collect()
}
