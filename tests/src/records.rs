//! A lock's record, once more from 02 alone: its commands, where it first differs, and by enumeration which board gives
//! it.

use crate::enumeration::Machine;
use crate::reference::{read, Refusal, Sheet};

const PULSE: u8 = 0x10;
const SEEN: u8 = 0x11;

/// A command of a record.
#[derive(Clone, Copy, Debug, PartialEq, Eq)]
pub enum Command {
    Pulse,
    Seen(u8, u8),
}

/// What is told of a record.
#[derive(Clone, Copy, Debug, PartialEq, Eq)]
pub struct Recorded {
    /// The place of the first SEEN whose sound differs from the specification's.
    pub differs: Option<usize>,
    /// Whether some single board gives every sound.
    pub given: bool,
}

/// The first board that gives a record: its choices, and its departing sequence if it departs.
#[derive(Clone, Debug, PartialEq, Eq)]
pub struct Explained {
    pub board: Vec<u8>,
    pub sequence: Option<Vec<u8>>,
}

/// The bytes of commands.
pub fn spell(commands: &[Command]) -> Vec<u8> {
    let bytes = |command: &Command| match *command {
        Command::Pulse => vec![PULSE],
        Command::Seen(x, o) => vec![SEEN, x, o],
    };
    commands.iter().flat_map(bytes).collect()
}

/// The commands of a record, each with its place; 20 at the first that is cut, unknown, out of range, or a SEEN before
/// any PULSE.
pub fn commands(sheet: &Sheet, log: &[u8]) -> Result<Vec<(usize, Command)>, Refusal> {
    let mut list = Vec::new();
    let mut place = 0;
    while place < log.len() {
        let command = match log[place..] {
            [PULSE, ..] => Command::Pulse,
            [SEEN, x, o, ..] if !list.is_empty() && x < sheet.presses && o < sheet.sounds => {
                Command::Seen(x, o)
            }
            _ => return Err(Refusal { number: 20, place }),
        };
        list.push((place, command));
        place += spell(&[command]).len();
    }
    Ok(list)
}

/// The place of the first SEEN whose sound differs from the specification's.
fn first_difference(sheet: &Sheet, list: &[(usize, Command)]) -> Option<usize> {
    let mut state = None;
    for &(place, command) in list {
        match command {
            Command::Pulse => state = Some(0),
            Command::Seen(x, o) => {
                let rule = state.and_then(|s| sheet.rules.get(&(s, x)));
                if rule.is_some_and(|rule| rule.0 != o) {
                    return Some(place);
                }
                state = rule.map(|rule| rule.1);
            }
        }
    }
    None
}

/// Whether the board gives every sound of the record.
fn gives(machine: &Machine, board: &[u8], list: &[(usize, Command)]) -> bool {
    let mutant = machine.mutant(board);
    let commands: Vec<Command> = list.iter().map(|&(_, command)| command).collect();
    commands
        .split(|&command| command == Command::Pulse)
        .all(|run| {
            let pair = |command: &Command| match *command {
                Command::Seen(x, o) => (x, o),
                Command::Pulse => unreachable!("split at the pulses"),
            };
            let (presses, sounds): (Vec<u8>, Vec<u8>) = run.iter().map(pair).unzip();
            mutant.outputs(&presses).eq(sounds)
        })
}

/// Check a record.
pub fn check(bytes: &[u8], log: &[u8]) -> Result<Recorded, Refusal> {
    let sheet = read(bytes)?.sheet;
    let list = commands(&sheet, log)?;
    let machine = Machine::new(&sheet);
    let given = machine.boards().any(|board| gives(&machine, &board, &list));
    Ok(Recorded {
        differs: first_difference(&sheet, &list),
        given,
    })
}

/// Explain a record, with buffers of so many bytes.
pub fn explain(
    bytes: &[u8],
    log: &[u8],
    board_room: usize,
    sequence_room: usize,
) -> Result<Option<Explained>, Refusal> {
    let reading = read(bytes)?;
    let list = commands(&reading.sheet, log)?;
    if board_room < reading.sheet.summary().open_pairs {
        return Err(Refusal {
            number: 16,
            place: 0,
        });
    }
    if sequence_room < usize::from(reading.sheet.states).pow(2) {
        return Err(Refusal {
            number: 16,
            place: 1,
        });
    }
    let machine = Machine::new(&reading.sheet);
    let board = machine.boards().find(|board| gives(&machine, board, &list));
    Ok(board.map(|board| Explained {
        sequence: machine.mutant(&board).distinguish(),
        board,
    }))
}

/// The record of a board on tests: for each a PULSE, and each press with the sound that the board gives.
pub fn record_of(machine: &Machine, board: &[u8], tests: &[Vec<u8>]) -> Vec<u8> {
    let mutant = machine.mutant(board);
    let run = |test: &Vec<u8>| {
        let seen = test
            .iter()
            .zip(mutant.outputs(test))
            .map(|(&x, o)| Command::Seen(x, o));
        spell(&[Command::Pulse].into_iter().chain(seen).collect::<Vec<_>>())
    };
    tests.iter().flat_map(run).collect()
}
