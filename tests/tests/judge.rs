//! Judge through the library, against the enumeration of all mutants.

use ranthelo_tests::enumeration::{self, Machine, Survivor};
use ranthelo_tests::generator::{self, Random, Shape, SMALL};
use ranthelo_tests::guarded::judge::{checked_judge, checked_judge_counting};
use ranthelo_tests::listed::{self, spelled};
use ranthelo_tests::reference::{read, Refusal, Sheet};

fn open_pairs(bytes: &[u8]) -> usize {
    read(bytes).map_or(0, |reading| reading.sheet.summary().open_pairs)
}

fn judge(bytes: &[u8]) -> Option<Survivor> {
    let verdict = checked_judge(bytes, 40, 300, open_pairs(bytes));
    verdict.unwrap_or_else(|refusal| panic!("{refusal:?}: {}", spelled(bytes)))
}

fn agree(bytes: &[u8], board_room: usize, sequence_room: usize) {
    let expected = enumeration::judge(bytes, board_room, sequence_room);
    let verdict = checked_judge(bytes, board_room, sequence_room, open_pairs(bytes));
    let told = spelled(bytes);
    assert_eq!(
        verdict, expected,
        "{board_room} and {sequence_room} bytes: {told}"
    );
}

#[test]
fn listed_sheets() {
    for (name, bytes, survivor) in listed::verdicts() {
        assert_eq!(judge(&bytes), survivor, "{name}");
    }
    for (name, bytes) in listed::all() {
        if !name.starts_with("32") {
            agree(&bytes, 32, 256);
        }
    }
}

#[test]
fn counting_changes_no_answer() {
    for (name, bytes) in listed::all() {
        for (board, sequence) in [(32, 256), (0, 256), (32, 0)] {
            let open = open_pairs(&bytes);
            let counted = checked_judge_counting(&bytes, board, sequence, open);
            let judged = checked_judge(&bytes, board, sequence, open);
            assert_eq!(counted, judged, "{name}, {board} and {sequence} bytes");
        }
    }
}

#[test]
fn refusals_come_in_order() {
    let refused = |number, place| Err(Refusal { number, place });
    let p4 = listed::p4();
    assert_eq!(checked_judge(&p4[..9], 0, 0, 0), refused(2, 9));
    assert_eq!(checked_judge(&p4, 1, 3, 2), refused(16, 0));
    assert_eq!(checked_judge(&p4, 2, 3, 2), refused(16, 1));
    assert_eq!(checked_judge(&p4, 0, 4, 2), refused(16, 0));
    assert!(checked_judge(&p4, 2, 4, 2).is_ok());
    assert_eq!(checked_judge(&listed::p6(), 0, 0, 0), refused(16, 1));
    assert_eq!(checked_judge(&listed::p6(), 0, 1, 0), Ok(None));
}

/// Sheets with few enough boards to try them all.
fn few_boards(boards: u64) -> Shape {
    Shape { boards, ..SMALL }
}

#[test]
fn random_sheets() {
    let mut random = Random::new(0x5EED_0007);
    let (mut complete, mut survived) = (0, 0);
    for i in 0..50_000 {
        let shape = few_boards(if i % 50 == 0 { 5_000 } else { 300 });
        let sheet = generator::sheet(&mut random, &shape);
        let bytes = sheet.encode();
        let expected = Machine::new(&sheet).judge();
        assert_eq!(judge(&bytes), expected, "{}", spelled(&bytes));
        match expected {
            Some(_) => survived += 1,
            None => complete += 1,
        }
    }
    assert!(complete > 10_000 && survived > 10_000);
}

/// Suites that are made complete by their survivors' sequences, and then lack one test.
#[test]
fn suites_made_complete() {
    let mut random = Random::new(0x5EED_0008);
    for _ in 0..3_000 {
        let sheet = generator::sheet(&mut random, &few_boards(300));
        let mut sheet = agree_until_complete(sheet);
        if !sheet.tests.is_empty() {
            let dropped = random.below(sheet.tests.len());
            sheet.tests.remove(dropped);
            agreed_verdict(&sheet);
        }
    }
}

fn agreed_verdict(sheet: &Sheet) -> Option<Survivor> {
    let bytes = sheet.encode();
    let expected = Machine::new(sheet).judge();
    assert_eq!(judge(&bytes), expected, "{}", spelled(&bytes));
    expected
}

/// The sheet with its survivors' sequences as further tests.
fn agree_until_complete(mut sheet: Sheet) -> Sheet {
    while let Some(survivor) = agreed_verdict(&sheet) {
        sheet.tests.push(survivor.sequence);
    }
    sheet
}

#[test]
fn any_buffers() {
    let mut random = Random::new(0x5EED_0009);
    for _ in 0..10_000 {
        let sheet = generator::sheet(&mut random, &few_boards(60));
        let mut bytes = sheet.encode();
        if random.chance(20) {
            bytes = generator::damaged(&mut random, &bytes);
            if read(&bytes).is_ok() {
                continue;
            }
        }
        let board = (sheet.summary().open_pairs + random.below(5)).saturating_sub(2);
        let sequence = usize::from(sheet.states).pow(2) + random.below(5);
        agree(&bytes, board, sequence.saturating_sub(2));
    }
}

/// Pairs with 256 choices.
#[test]
fn many_choices() {
    let shape = Shape {
        states: 16,
        presses: 3,
        sounds: 16,
        boards: 1_000,
        ..SMALL
    };
    let mut random = Random::new(0x5EED_000A);
    for _ in 0..1_000 {
        let sheet = generator::sheet(&mut random, &shape);
        agreed_verdict(&sheet);
    }
    agree_until_complete(read(&generator::faults_at_one_pair(255)).unwrap().sheet);
}

/// A pair without a rule that only mutants meet on a defined sequence.
#[test]
fn unspecified_pair_of_256_choices() {
    let mut sheet = generator::ring(2);
    for s in 1..16 {
        sheet.rules.insert((s, 1), (s % 2, 0));
    }
    sheet.faults.insert(((5, 0), (5, 0)));
    assert_eq!(Machine::new(&sheet).counts(), [256, 2]);
    agree_until_complete(sheet);
}

/// 32 pairs without a rule, of 256 choices each: more boards than could ever be tried.
#[test]
fn more_boards_than_can_be_tried() {
    let mut sheet = generator::ring(3);
    assert_eq!(judge(&sheet.encode()), None);
    sheet.rules.insert((0, 1), (0, 0));
    sheet.faults.insert(((15, 0), (15, 15)));
    let mut board = vec![0; 32];
    board[29] = 1;
    let sequence = vec![0; 17];
    assert_eq!(judge(&sheet.encode()), Some(Survivor { board, sequence }));
    sheet.tests.push(vec![0; 17]);
    assert_eq!(judge(&sheet.encode()), None);
}

/// Sheets with too many boards to try them all: each survivor is one, later than the
/// one before, and a complete suite lets no nonconforming one of some boards pass.
#[test]
fn survivors_of_larger_sheets() {
    let shape = Shape {
        states: 8,
        presses: 4,
        sounds: 2,
        faults: 16,
        boards: 200_000,
        ..SMALL
    };
    let mut random = Random::new(0x5EED_000B);
    for _ in 0..100 {
        let mut sheet = generator::sheet(&mut random, &shape);
        let mut last = None;
        while let Some(survivor) = judge(&sheet.encode()) {
            let machine = Machine::new(&sheet);
            let mutant = machine.mutant(&survivor.board);
            let told = spelled(&sheet.encode());
            assert_eq!(mutant.first_failed(), None, "{told}");
            assert_eq!(
                mutant.distinguish(),
                Some(survivor.sequence.clone()),
                "{told}"
            );
            assert!(last < Some(survivor.board.clone()), "{told}");
            last = Some(survivor.board);
            sheet.tests.push(survivor.sequence);
        }
        no_survivor_among_some(&mut random, &sheet);
    }
}

fn no_survivor_among_some(random: &mut Random, sheet: &Sheet) {
    let machine = Machine::new(sheet);
    for _ in 0..50 {
        let board = generator::board(random, &machine.counts());
        let mutant = machine.mutant(&board);
        let survives = mutant.first_failed().is_none() && mutant.distinguish().is_some();
        assert!(!survives, "{board:?} of {}", spelled(&sheet.encode()));
    }
}

/// 02, Point 14: any reordering gives the same verdict, board and sequence, and so does a test given twice.
#[test]
fn shuffled_lists() {
    let mut random = Random::new(0x5EED_000C);
    let mut moved = 0;
    for i in 0..3_000 {
        let shape = if i % 3 == 0 { generator::LARGE } else { SMALL };
        let mut sheet = generator::sheet(
            &mut random,
            &Shape {
                open_pairs: 12,
                ..shape
            },
        );
        let (before, first) = (judge(&sheet.encode()), sheet.tests.clone());
        random.shuffle(&mut sheet.tests);
        moved += usize::from(sheet.tests != first);
        assert_eq!(
            judge(&sheet.encode()),
            before,
            "{}",
            spelled(&sheet.encode())
        );
        if !sheet.tests.is_empty() {
            let again = sheet.tests[random.below(sheet.tests.len())].clone();
            sheet
                .tests
                .insert(random.below(sheet.tests.len() + 1), again);
            assert_eq!(
                judge(&sheet.encode()),
                before,
                "{}",
                spelled(&sheet.encode())
            );
        }
    }
    assert!(moved > 1_000);
}

/// 02, Point 14: with tests added anywhere and none removed a complete list stays complete, and a survivor is the
/// shorter list's or a later one.
#[test]
fn longer_lists() {
    let mut random = Random::new(0x5EED_000D);
    let (mut later, mut same, mut complete) = (0, 0, 0);
    for i in 0..6_000 {
        let mut sheet = generator::sheet(&mut random, &few_boards(2_000));
        if i % 4 == 0 {
            sheet = agree_until_complete(sheet);
        }
        let mut before = judge(&sheet.encode());
        for _ in 0..4 {
            let length = random.below(12);
            let test = generator::walk(&mut random, &sheet, length);
            sheet
                .tests
                .insert(random.below(sheet.tests.len() + 1), test);
            let after = judge(&sheet.encode());
            let told = spelled(&sheet.encode());
            match (&before, &after) {
                (None, _) => {
                    assert_eq!(after, None, "{told}");
                    complete += 1;
                }
                (Some(shorter), Some(longer)) => {
                    assert!(shorter.board <= longer.board, "{told}");
                    assert_eq!(shorter.board == longer.board, shorter == longer, "{told}");
                    later += usize::from(shorter.board < longer.board);
                    same += usize::from(shorter == longer);
                }
                (Some(_), None) => {}
            }
            before = after;
        }
    }
    assert!(later > 100 && same > 100 && complete > 1_000);
}
