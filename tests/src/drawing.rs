//! Sheets as tables and from tables, written from document 02 (Points 1, 5 and 7) alone; and tables to try.

use crate::generator::{self, Random, LARGE, SMALL};
use crate::reference::{read, Refusal, Sheet, END, FAULT, PRESS, QUIET, RULE, SIZE, START, TEST};

/// Sizes; whether the sheet is quiet; rules and faults four bytes a row; the states of the STARTs; the lengths of the
/// tests and their presses end to end.
#[derive(Clone, Debug, Default, PartialEq, Eq)]
pub struct Tables {
    pub size: [u8; 3],
    pub quiet: bool,
    pub rules: Vec<u8>,
    pub faults: Vec<u8>,
    pub starts: Vec<u8>,
    pub lengths: Vec<u16>,
    pub presses: Vec<u8>,
}

impl Tables {
    /// The tables of a sheet.
    pub fn of(sheet: &Sheet) -> Self {
        Tables::of_commands(&sheet.encode())
    }

    /// The tables that commands spell which stand in their order, whatever else is wrong with them.
    pub fn of_commands(bytes: &[u8]) -> Self {
        let mut tables = Tables::default();
        for command in generator::commands(bytes) {
            match (command[0], &command[1..]) {
                (SIZE, operands) => tables.size.copy_from_slice(operands),
                (QUIET, _) => tables.quiet = true,
                (RULE, row) => tables.rules.extend(row),
                (FAULT, row) => tables.faults.extend(row),
                (START, t) => tables.starts.extend(t),
                (TEST, _) => tables.lengths.push(0),
                (PRESS, x) => {
                    tables.presses.extend(x);
                    *tables.lengths.last_mut().expect("a TEST came before") += 1;
                }
                _ => {}
            }
        }
        tables
    }

    fn is_cut(&self) -> bool {
        let cut = |table: &[u8]| !table.chunks_exact(4).remainder().is_empty();
        let total: u64 = self.lengths.iter().map(|&length| u64::from(length)).sum();
        cut(&self.rules) || cut(&self.faults) || total != self.presses.len() as u64
    }

    /// The bytes of the sheet, of tables that are not cut.
    pub fn spell(&self) -> Vec<u8> {
        let mut bytes = [&[SIZE], &self.size[..]].concat();
        bytes.extend(self.quiet.then_some(QUIET));
        for (command, table) in [(RULE, &self.rules), (FAULT, &self.faults)] {
            for row in table.chunks_exact(4) {
                bytes.push(command);
                bytes.extend(row);
            }
        }
        bytes.extend(self.starts.iter().flat_map(|&t| [START, t]));
        let mut presses = self.presses.iter();
        for &length in &self.lengths {
            bytes.push(TEST);
            let test = presses.by_ref().take(length.into());
            bytes.extend(test.flat_map(|&x| [PRESS, x]));
        }
        bytes.push(END);
        bytes
    }
}

/// Writes the sheet of the tables to a buffer of so many bytes.
pub fn write(tables: &Tables, room: usize) -> Result<Vec<u8>, Refusal> {
    let refused = |number| Refusal { number, place: 0 };
    if tables.is_cut() {
        return Err(refused(2));
    }
    let sheet = tables.spell();
    read(&sheet).map_err(|refusal| refused(refusal.number))?;
    if room < sheet.len() {
        return Err(refused(16));
    }
    Ok(sheet)
}

/// Tables of any kind.
pub fn any_tables(random: &mut Random) -> Tables {
    let bytes = match random.below(100) {
        0..=1 => generator::at_limit(random),
        2..=11 => generator::sheet(random, &LARGE).encode(),
        _ => generator::sheet(random, &SMALL).encode(),
    };
    let mut tables = Tables::of_commands(&bytes);
    for _ in 0..random.pick(&[0, 0, 1, 1, 1, 2]) {
        damage(random, &mut tables);
    }
    tables
}

fn damage(random: &mut Random, tables: &mut Tables) {
    match random.below(7) {
        0 => {
            let place = random.below(3);
            tables.size[place] = random.below(18) as u8;
        }
        1 => damage_rows(random, &mut tables.rules),
        2 => damage_rows(random, &mut tables.faults),
        3 => damage_lengths(random, tables),
        4 => damage_bytes(random, &mut tables.starts),
        5 => tables.quiet = !tables.quiet,
        _ => damage_bytes(random, &mut tables.presses),
    }
}

fn damage_bytes(random: &mut Random, bytes: &mut Vec<u8>) {
    let place = random.below(bytes.len() + 1);
    match random.below(4) {
        0 => bytes.insert(place, random.below(4) as u8),
        1 => bytes.truncate(place),
        _ => {
            if let Some(byte) = bytes.get_mut(place) {
                *byte = random.pick(&[0, 1, 2, 15, 16, 255]);
            }
        }
    }
}

/// A byte wrong, or a row that is gone, comes twice or stands elsewhere.
fn damage_rows(random: &mut Random, table: &mut Vec<u8>) {
    if table.is_empty() || random.chance(50) {
        return damage_bytes(random, table);
    }
    let mut rows: Vec<Vec<u8>> = table.chunks(4).map(<[u8]>::to_vec).collect();
    let (place, other) = (random.below(rows.len()), random.below(rows.len()));
    match random.below(3) {
        0 => rows.swap(place, other),
        1 => rows.insert(place, rows[other].clone()),
        _ => {
            rows.remove(place);
        }
    }
    *table = rows.concat();
}

/// A length wrong, or a press that goes to another test.
fn damage_lengths(random: &mut Random, tables: &mut Tables) {
    let lengths = &mut tables.lengths;
    if lengths.is_empty() {
        return lengths.push(random.below(2) as u16);
    }
    let (place, other) = (random.below(lengths.len()), random.below(lengths.len()));
    match random.below(4) {
        0 => lengths[place] = random.pick(&[0, 1, 256, 257, u16::MAX]),
        1 => lengths[place] = lengths[place].wrapping_add(1),
        2 => lengths[place] = lengths[place].wrapping_sub(1),
        _ if lengths[place] > 0 => {
            lengths[place] -= 1;
            lengths[other] = lengths[other].wrapping_add(1);
        }
        _ => lengths.insert(place, 0),
    }
}
