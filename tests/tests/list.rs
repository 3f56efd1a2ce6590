//! `list` on sheets of any kind: it ends, shows every byte, and marks the place that reading gives.

use ranthelo::list::list;
use ranthelo::{explain, meaning};
use ranthelo_tests::enumeration::Machine;
use ranthelo_tests::generator::{self, Random};
use ranthelo_tests::listed::{self, hexadecimal, spelled};
use ranthelo_tests::reference::{read, Refusal, MOST_BYTES};

/// A line of a command: its mark, its offset and its bytes.
fn command(line: &str) -> Option<(bool, usize, Vec<u8>)> {
    let (mark, rest) = (line.starts_with('>'), line.get(1..)?);
    let place = rest.get(..6)?.trim().parse().ok()?;
    let bytes = rest.get(8..).map_or("", |rest| &rest[..rest.len().min(14)]);
    Some((mark, place, hexadecimal(bytes)))
}

/// Lists some bytes; gives the number of their refusal, 0 for none.
fn listed(bytes: &[u8]) -> usize {
    let listing = list(bytes);
    let lines: Vec<_> = listing
        .lines()
        .map_while(command_or_reason)
        .flatten()
        .collect();
    let reading = read(bytes);
    let marks: Vec<usize> = lines
        .iter()
        .filter(|line| line.0)
        .map(|line| line.1)
        .collect();
    let places = reading.as_ref().err().map(|refusal| refusal.place);
    assert_eq!(marks, places.into_iter().collect::<Vec<_>>(), "{listing}");
    let shown: Vec<u8> = lines.into_iter().flat_map(|line| line.2).collect();
    let number = reading
        .as_ref()
        .map_or_else(|refusal| refusal.number, |_| 0);
    let whole = number != 1 && shown == bytes;
    assert!(
        whole || number == 1 && bytes.starts_with(&shown),
        "{listing}"
    );
    match reading {
        Err(refusal) => reason_is_told(bytes, refusal, &listing),
        Ok(reading) => {
            let counts = Machine::new(&reading.sheet).counts();
            choices_are_counted(&listing, &counts);
        }
    }
    number
}

/// A command's line, nothing for the reason's line, and the end where the open pairs begin.
fn command_or_reason(line: &str) -> Option<Option<(bool, usize, Vec<u8>)>> {
    if line.starts_with("         refused ") {
        return Some(None);
    }
    (!line.starts_with("open pair ")).then(|| command(line))
}

/// Below the mark stands the reason, which says more than what the number means.
fn reason_is_told(bytes: &[u8], refusal: Refusal, listing: &str) {
    let Refusal { number, place } = refusal;
    let reason = explain::reason(bytes, ranthelo::Refusal { number, place });
    assert_ne!(Some(reason.as_str()), meaning(number), "{listing}");
    let below = listing
        .lines()
        .skip_while(|line| !line.starts_with('>'))
        .nth(1);
    let expected = format!("         refused {number}: {reason}");
    assert_eq!(below, Some(expected.as_str()), "{listing}");
}

fn choices_are_counted(listing: &str, counts: &[usize]) {
    let pairs = listing
        .lines()
        .filter(|line| line.starts_with("open pair "));
    let told: Vec<usize> = pairs
        .map(|line| line.split(", ").last().expect("choices"))
        .map(|last| last.trim_end_matches(" choices").parse().unwrap())
        .collect();
    assert_eq!(told, counts, "{listing}");
}

#[test]
fn listed_sheets() {
    for (_, bytes) in listed::all() {
        listed(&bytes);
    }
}

#[test]
fn damaged_sheets() {
    let mut random = Random::new(0x5EED_0023);
    let (mut damaged, mut met) = (0, [0; 13]);
    while damaged < 100_000 {
        let bytes = generator::any_bytes(&mut random);
        let bytes = generator::damaged(&mut random, &bytes);
        let number = listed(&bytes);
        met[number] += 1;
        damaged += usize::from(number > 0);
    }
    assert!(met.iter().all(|&times| times > 0), "{met:?}");
}

#[test]
fn prefixes_and_long_sheets() {
    for (_, bytes) in listed::all() {
        for length in 0..bytes.len() {
            listed(&bytes[..length]);
        }
    }
    assert_eq!(listed(&generator::of_length(MOST_BYTES)), 0);
    assert_eq!(listed(&generator::of_length(MOST_BYTES + 1)), 1);
    assert_eq!(listed(&[2; 3 * MOST_BYTES]), 1, "{}", spelled(&[2]));
}
