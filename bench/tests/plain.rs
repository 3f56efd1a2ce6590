//! The plain Rust versions against the reference code.

use ranthelo_bench::{engine, families, plain};
use ranthelo_tests::enumeration::{self, Machine, Passing, Ran, Survivor};
use ranthelo_tests::generator::{self, Random, Shape, LARGE, SMALL};
use ranthelo_tests::listed::{self, spelled};
use ranthelo_tests::numbering;
use ranthelo_tests::reference::{self, Move, Pair, Sheet, MOST_BYTES};
use ranthelo_tests::seeded;

#[test]
fn reading() {
    let mut random = Random::new(11);
    for _ in 0..50_000 {
        let bytes = generator::any_bytes(&mut random);
        let expected = reference::read(&bytes).map(|reading| reading.sheet.summary());
        assert_eq!(plain::read(&bytes), expected, "{}", spelled(&bytes));
    }
}

#[test]
fn sheets_from_seeds() {
    let mut random = Random::new(15);
    for _ in 0..20_000 {
        let size = [(); 3].map(|()| random.below(18) as u8);
        let seed = random.below(1 << 32) as u32;
        let room = MOST_BYTES - usize::from(random.chance(5));
        let mut buffer = vec![0; room];
        let length = plain::generate(seed, size, &mut buffer);
        let generated = length.map(|length| buffer[..length].to_vec());
        assert_eq!(generated, seeded::generate(seed, size, room));
    }
}

#[test]
fn first_reached_form() {
    let mut random = Random::new(16);
    for i in 0..20_000 {
        let shape = if i % 10 == 0 { LARGE } else { SMALL };
        let bytes = generator::sheet(&mut random, &shape).encode();
        let room = bytes.len() - usize::from(random.chance(5));
        let mut buffer = vec![0; room];
        let length = plain::renumber(&bytes, &mut buffer);
        let converted = length.map(|length| buffer[..length].to_vec());
        assert_eq!(
            converted,
            numbering::renumber(&bytes, room),
            "{}",
            spelled(&bytes)
        );
    }
}

#[test]
fn boards() {
    let mut random = Random::new(12);
    for i in 0..20_000 {
        let shape = if i % 10 == 0 { LARGE } else { SMALL };
        let sheet = generator::sheet(&mut random, &shape);
        let bytes = sheet.encode();
        let counts = Machine::new(&sheet).counts();
        let board = generator::any_board(&mut random, &counts);
        let bound = usize::from(sheet.presses) + usize::from(random.chance(5));
        let presses: Vec<u8> = (0..20).map(|_| random.below(bound) as u8).collect();
        let room = random.pick(&[19, 20, 21, 256]);
        let mut buffer = vec![0; room];

        let run = plain::run(&bytes, &board, &presses, &mut buffer);
        let expected = enumeration::run(&bytes, &board, &presses, room);
        let ran = run.map(|used| Ran {
            sounds: buffer[..20].to_vec(),
            used,
        });
        assert_eq!(ran, expected);

        let failed = plain::first_failed(&bytes, &board);
        assert_eq!(failed, enumeration::first_failed(&bytes, &board));

        let (choices, boards) = (board.repeat(3), random.pick(&[2, 3, 3, 3]));
        let mut results = vec![0; random.pick(&[2, 3, 4])];
        let tried = plain::tray(&bytes, boards, &choices, &mut results);
        let expected = enumeration::tray(&bytes, boards, &choices, results.len());
        assert_eq!(tried.map(|()| results[..boards].to_vec()), expected);

        let compared = plain::compare(&bytes, &board, &mut buffer);
        let sequence = compared.map(|length| length.map(|length| buffer[..length].to_vec()));
        assert_eq!(sequence, enumeration::compare(&bytes, &board, room));
    }
}

/// Holds both ways of judging to the verdict of all boards.
fn check(sheet: &Sheet) -> Option<Survivor> {
    let expected = Machine::new(sheet).judge();
    let bytes = sheet.encode();
    for judge in [engine::judge, engine::judge_thoroughly] {
        let survivor = judge(&bytes).unwrap().survivor;
        assert_eq!(survivor, expected, "{}", spelled(&bytes));
    }
    expected
}

/// Checks a sheet with its suite, and with tests that survivors bring in.
fn check_on(mut sheet: Sheet, random: &mut Random) {
    while let Some(survivor) = check(&sheet) {
        if random.chance(20) {
            break;
        }
        sheet.tests.push(survivor.sequence);
    }
}

#[test]
fn judging() {
    for (name, bytes, survivor) in listed::verdicts() {
        assert_eq!(engine::judge(&bytes).unwrap().survivor, survivor, "{name}");
        let thorough = engine::judge_thoroughly(&bytes).unwrap();
        assert_eq!(thorough.survivor, survivor, "{name}");
    }
    let shape = Shape {
        boards: 300,
        ..SMALL
    };
    let mut random = Random::new(13);
    for _ in 0..5_000 {
        let sheet = generator::sheet(&mut random, &shape);
        check_on(sheet, &mut random);
    }
}

/// Machines whose states can be exchanged, or nearly so: of a machine with all transitions free
/// some pairs lose all of their faults or some.
#[test]
fn judging_with_states_alike() {
    let mut random = Random::new(14);
    let mut checked = 0;
    for seed in 0..4_000 {
        let (states, inputs) = random.pick(&[(2, 3), (3, 1), (3, 2), (4, 1), (4, 2), (5, 1)]);
        let mut sheet = families::free(states, inputs, seed);
        for pair in sheet.pairs().collect::<Vec<_>>() {
            let kept = random.pick(&[0, 0, 70, 100, 100]);
            let keeps = |&(at, _): &(Pair, Move)| at != pair || random.chance(kept);
            sheet.faults.retain(keeps);
        }
        let boards: usize = Machine::new(&sheet).counts().iter().product();
        if boards <= 2_000 {
            check_on(sheet, &mut random);
            checked += 1;
        }
    }
    assert!(checked > 2_000, "{checked} were small enough");
}

/// On sheets with too many boards to try them all, both ways agree.
fn agree(bytes: &[u8]) -> (Option<Survivor>, u32) {
    let quick = engine::judge(bytes).unwrap();
    let thorough = engine::judge_thoroughly(bytes).unwrap();
    assert_eq!(quick.survivor, thorough.survivor);
    (quick.survivor, thorough.nodes)
}

#[test]
fn judging_families() {
    let family = |family| families::sheet(&family, 3);
    let sheets = [
        families::seeded(families::SEEDS.start, families::LARGEST),
        family(families::COMPLETE),
        family(families::LOCK),
        family(families::PARTIAL),
        family(families::TEN_FAULTS),
        families::unspecified(8, 4, 8, 3),
        families::free(5, 5, 1),
        families::combination(8, 4, 2, 1),
    ];
    for sheet in sheets {
        let sheet = families::completed(sheet).expect("a suite that fits");
        assert_eq!(agree(&sheet.encode()).0, None);
        let dropped = families::with_one_dropped(sheet).encode();
        assert!(agree(&dropped).0.is_some());
    }
}

#[test]
fn judging_formulas() {
    for (clauses, seed) in families::CLAUSES {
        let formula = families::three_literals(clauses, seed);
        assert_eq!(agree(&formula.encode()).0.is_some(), seed == 1);
    }
    for pigeons in 3..7 {
        let formula = families::pigeons(pigeons, 1);
        assert_eq!(agree(&formula.encode()).0, None);
        let fewer = families::with_one_dropped(formula);
        assert!(agree(&fewer.encode()).0.is_some());
    }
}

/// The steering, which no verdict shows, is as good as it was.
#[test]
fn nodes() {
    let most = [
        56, 58, 95, 232, 505, 100, 50, 182, 25, 95, 116, 1198, 363, 2137,
    ];
    for ((name, bytes), most) in families::KEPT.into_iter().zip(most) {
        let (_, nodes) = agree(bytes);
        assert!(nodes <= most, "{name}: {nodes} nodes");
    }
}

#[test]
fn families_are_accepted() {
    let families = [
        families::COMPLETE,
        families::LOCK,
        families::PARTIAL,
        families::TEN_FAULTS,
    ];
    for family in families {
        let sheet = families::sheet(&family, 1);
        let summary = plain::read(&sheet.encode()).expect("the sheet is accepted");
        assert_eq!(summary.open_pairs, family.unspecified + family.faulty);
        assert_eq!(summary.faults, family.faults);
    }
    let suspects = |sheet: Sheet| plain::read(&sheet.encode()).unwrap().open_pairs;
    for (states, inputs) in families::FREE {
        let pairs = usize::from(states) * usize::from(inputs);
        assert_eq!(suspects(families::free(states, inputs, 1)), pairs);
    }
    for (states, inputs, faults) in families::COMBINATIONS {
        let sheet = families::combination(states, inputs, faults, 1);
        assert_eq!(suspects(sheet), 32);
    }
    for seed in families::SEEDS {
        assert_eq!(suspects(families::seeded(seed, families::LARGEST)), 32);
    }
    assert_eq!(suspects(families::wide()), 32);
    assert_eq!(suspects(families::three_literals(111, 1)), 32);
}

/// Whole walks, and takes from any board.
#[test]
fn walks() {
    let mut random = Random::new(16);
    for _ in 0..1_000 {
        let shape = Shape {
            boards: 60,
            ..SMALL
        };
        let sheet = generator::sheet(&mut random, &shape);
        let (bytes, counts) = (sheet.encode(), Machine::new(&sheet).counts());
        let agree = |last: Option<&[u8]>| {
            let place = u8::from(last.is_some());
            let expected = enumeration::take(&bytes, place, last.unwrap_or(&[]), 32, 256);
            let taken = plain::take(&bytes, last, usize::MAX).expect("an accepted sheet");
            let taken = taken.map(|(board, sequence)| Passing { board, sequence });
            assert_eq!(Ok(taken.clone()), expected, "{}", spelled(&bytes));
            taken
        };
        agree(Some(&generator::board(&mut random, &counts)));
        let mut last = None;
        while let Some(taken) = agree(last.as_deref()) {
            last = Some(taken.board);
        }
    }
}

#[test]
fn tests_added() {
    let mut random = Random::new(17);
    for _ in 0..20_000 {
        let sheet = generator::sheet(&mut random, &SMALL);
        let bytes = sheet.encode();
        let length = random.pick(&[0, 3, 8, 256, 257]);
        let mut presses = generator::walk(&mut random, &sheet, length);
        if random.chance(30) && !presses.is_empty() {
            let place = random.below(presses.len());
            presses[place] = random.pick(&[0, 1, 2, 16]);
        }
        let room = bytes.len() + 2 * presses.len() + random.below(3);
        let mut buffer = vec![0; room];
        let added = plain::add_test(&bytes, &presses, &mut buffer);
        let longer = added.map(|length| buffer[..length].to_vec());
        assert_eq!(longer, enumeration::add_test(&bytes, &presses, room));
    }
}
