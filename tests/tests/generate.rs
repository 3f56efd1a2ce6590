//! Sheets from seeds through the library, against the generator of the tests.

use ranthelo_tests::enumeration;
use ranthelo_tests::generator::Random;
use ranthelo_tests::guarded::judge::checked_judge;
use ranthelo_tests::guarded::reading::checked_read;
use ranthelo_tests::guarded::writing::checked_generate;
use ranthelo_tests::listed::{hexadecimal, spelled};
use ranthelo_tests::reference::{read, Refusal, MOST_BYTES};
use ranthelo_tests::seeded::generate;

fn agree(seed: u32, size: [u8; 3], room: usize) -> Result<Vec<u8>, Refusal> {
    let expected = generate(seed, size, room);
    let generated = checked_generate(seed, size, room);
    assert_eq!(generated, expected, "{seed}, {size:?}, {room} bytes");
    expected
}

/// The size whose numbers are 1 to 16, by its place in dictionary order.
fn size_at(i: usize) -> [u8; 3] {
    [i / 256, i / 16, i].map(|digit| (digit % 16 + 1) as u8)
}

/// What 02 says of every written sheet; and the judge's verdict on it.
fn is_a_sheet(bytes: &[u8], size: [u8; 3]) {
    let sheet = read(bytes).expect("an accepted sheet").sheet;
    let summary = sheet.summary();
    assert_eq!(checked_read(bytes), Ok(summary));
    let [states, presses, sounds] = size.map(usize::from);
    assert_eq!(
        [summary.states, summary.presses, summary.sounds],
        [states, presses, sounds]
    );
    assert_eq!(summary.rules, states * presses);
    assert_eq!(summary.tests, 0);
    assert_eq!(summary.open_pairs, summary.faults);
    assert!(summary.faults <= if sounds == 1 { 0 } else { 32 });
    for &(pair, (sound, state)) in &sheet.faults {
        let (specified, next) = sheet.rules[&pair];
        assert_eq!((sound, state), ((specified + 1) % sheet.sounds, next));
    }
    let verdict = checked_judge(bytes, 32, 256, summary.open_pairs);
    let expected = enumeration::judge(bytes, 32, 256);
    assert_eq!(verdict, expected, "{}", spelled(bytes));
    let survivor = verdict.expect("an accepted sheet");
    assert_eq!(survivor.is_some(), summary.faults > 0);
}

#[test]
fn ten_thousand_seeds() {
    let mut random = Random::new(0x5EED_0401);
    let mut most = 0;
    for i in 0..10_000 {
        let size = size_at(i % 4096);
        let seed = random.below(1 << 32) as u32;
        let bytes = agree(seed, size, MOST_BYTES).expect("a size in range");
        most = most.max(bytes.len());
        is_a_sheet(&bytes, size);
    }
    assert_eq!(most, 5 + 5 * (256 + 32));
}

/// The ends of the seeds, where the sum wraps at the first draw or never in a sheet.
#[test]
fn seeds_at_the_ends() {
    for seed in (0..40).chain(u32::MAX - 40..=u32::MAX) {
        for size in [[1, 1, 1], [2, 2, 16], [3, 5, 2], [16, 16, 1], [16, 16, 16]] {
            let bytes = agree(seed, size, MOST_BYTES).expect("a size in range");
            is_a_sheet(&bytes, size);
        }
    }
}

#[test]
fn every_size_in_range_and_around_it() {
    let numbers = || (0..=18).chain([127, 128, 255]);
    for states in numbers() {
        for presses in numbers() {
            for sounds in numbers() {
                let size = [states, presses, sounds];
                let ok = size.iter().all(|number| (1..=16).contains(number));
                assert_eq!(agree(2026, size, MOST_BYTES).is_ok(), ok);
            }
        }
    }
}

#[test]
fn refusals_come_in_order() {
    let refused = |number| Err(Refusal { number, place: 0 });
    for room in [0, 1, 10, MOST_BYTES - 1] {
        assert_eq!(agree(1, [1, 1, 17], room), refused(4));
        assert_eq!(agree(1, [1, 1, 1], room), refused(16));
    }
    for room in [MOST_BYTES, MOST_BYTES + 1] {
        assert_eq!(agree(1, [0, 1, 1], room), refused(4));
        assert!(agree(1, [1, 1, 1], room).is_ok());
    }
}

/// From a third program; the proved check of the definitions has the same bytes.
#[test]
fn listed_sheets() {
    let same = |seed, size, text: &str| {
        assert_eq!(agree(seed, size, MOST_BYTES), Ok(hexadecimal(text)));
    };
    same(
        2,
        [2, 2, 2],
        "01 02 02 02  02 00 00 00 01  02 00 01 01 00  02 01 00 01 00  02 01 01 00 01  03 01 00 00 00  06",
    );
    same(
        2,
        [2, 2, 1],
        "01 02 02 01  02 00 00 00 01  02 00 01 00 00  02 01 00 00 00  02 01 01 00 01  06",
    );
    same(
        u32::MAX,
        [2, 2, 16],
        "01 02 02 10  02 00 00 0f 01  02 00 01 0e 01  02 01 00 0a 00  02 01 01 03 00  06",
    );
    let large = agree(7, [16, 16, 16], MOST_BYTES).expect("a size in range");
    assert_eq!(large.len(), 1445);
    assert_eq!(large[1439..], hexadecimal("03 0d 0f 06 06 06"));
}
