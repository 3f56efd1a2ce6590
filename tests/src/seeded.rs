//! Sheets from seeds, written from document 02 (Point 4) alone.

use crate::reference::{Refusal, END, FAULT, MOST_BYTES, RULE, SIZE};

/// The sheet of a seed, for a buffer of so many bytes.
pub fn generate(seed: u32, size: [u8; 3], room: usize) -> Result<Vec<u8>, Refusal> {
    let refused = |number| Err(Refusal { number, place: 0 });
    if size.iter().any(|number| !(1..=16).contains(number)) {
        return refused(4);
    }
    if room < MOST_BYTES {
        return refused(16);
    }
    let [states, presses, sounds] = size;
    let mut sum = u64::from(seed);
    let mut below = |bound: u8| {
        sum = (sum + 0x9E37_79B9) % (1 << 32);
        ((sum ^ (sum / 65536)) % u64::from(bound)) as u8
    };
    let (mut rules, mut faults) = (Vec::new(), Vec::new());
    for state in 0..states {
        for press in 0..presses {
            let (sound, drawn, lot) = (below(sounds), below(states), below(8));
            let next = if press == 0 {
                (state + 1) % states
            } else {
                drawn
            };
            rules.push([RULE, state, press, sound, next]);
            if lot == 0 && sounds >= 2 && faults.len() < 32 {
                faults.push([FAULT, state, press, (sound + 1) % sounds, next]);
            }
        }
    }
    let (rules, faults) = (rules.concat(), faults.concat());
    Ok([&[SIZE], &size[..], &rules, &faults, &[END]].concat())
}
