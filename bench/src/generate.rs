//! Sheets from seeds.

use crate::table::Table;
use ranthelo::raw;
use ranthelo_bench::{families, plain};
use ranthelo_tests::guarded::writing::checked_generate;
use ranthelo_tests::reference::MOST_BYTES;
use std::hint::black_box;

pub fn measure(table: &mut Table) {
    one(table, "1 × 1 × 1", 1, [1, 1, 1]);
    for seed in families::SEEDS {
        let case = format!("16 × 16 × 16, seed {seed}");
        one(table, &case, seed, families::LARGEST);
    }
}

fn one(table: &mut Table, case: &str, seed: u32, size: [u8; 3]) {
    let (mut buffer, mut other) = ([0; MOST_BYTES], [0; MOST_BYTES]);
    let length = plain::generate(seed, size, &mut other).expect("a size in range");
    let expected = other[..length].to_vec();
    let generated = checked_generate(seed, size, MOST_BYTES);
    assert_eq!(generated, Ok(expected));
    table.measure(
        "generate",
        case,
        || {
            let mut answer = [0; 3];
            raw::generate(black_box(seed), size, &mut buffer, &mut answer);
            black_box(answer);
        },
        || {
            black_box(plain::generate(black_box(seed), size, &mut other).ok());
        },
    );
}
