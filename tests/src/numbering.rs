//! State numbers in first-reached form, from document 02's Point 12 alone.

use crate::reference::{read, Refusal, Sheet};

/// The sheet with each state s renamed to `names[s]`; maps and sets keep their own order.
pub fn renamed(sheet: &Sheet, names: &[u8]) -> Sheet {
    let name = |state: u8| names[usize::from(state)];
    let rules = sheet.rules.iter();
    let faults = sheet.faults.iter();
    Sheet {
        rules: rules
            .map(|(&(s, x), &(o, t))| ((name(s), x), (o, name(t))))
            .collect(),
        faults: faults
            .map(|&((s, x), (o, t))| ((name(s), x), (o, name(t))))
            .collect(),
        starts: sheet.starts.iter().map(|&t| name(t)).collect(),
        ..sheet.clone()
    }
}

/// Each state's number: level by level, all sequences of one length, the smaller ones first.
pub fn first_reached(sheet: &Sheet) -> Vec<u8> {
    let mut names = vec![u8::MAX; sheet.states.into()];
    let mut next = 0;
    let mut level = vec![0];
    while !level.is_empty() {
        let mut new = Vec::new();
        for state in level {
            let name = &mut names[usize::from(state)];
            if *name == u8::MAX {
                *name = next;
                next += 1;
                new.push(state);
            }
        }
        level = Vec::new();
        for state in new {
            for press in 0..sheet.presses {
                level.extend(sheet.rules.get(&(state, press)).map(|&(_, t)| t));
            }
        }
    }
    names
}

/// The sheet in first-reached form, in a buffer of so many bytes.
pub fn renumber(bytes: &[u8], room: usize) -> Result<Vec<u8>, Refusal> {
    let sheet = read(bytes)?.sheet;
    if room < bytes.len() {
        let (number, place) = (16, 0);
        return Err(Refusal { number, place });
    }
    Ok(renamed(&sheet, &first_reached(&sheet)).encode())
}

/// All renamings of so many states that keep 0.
pub fn renamings(states: u8) -> Vec<Vec<u8>> {
    let mut all = vec![vec![0]];
    for _ in 1..states {
        let longer = |names: &Vec<u8>| {
            let names = names.clone();
            let left = (1..states).filter({
                let names = names.clone();
                move |name| !names.contains(name)
            });
            left.map(move |name| [&names[..], &[name]].concat())
        };
        all = all.iter().flat_map(longer).collect();
    }
    all
}
