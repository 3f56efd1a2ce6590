//! Walks over the boards that pass, and tests added, through the library: against the enumeration of all mutants.

use ranthelo_tests::enumeration::{self, Machine, Passing};
use ranthelo_tests::generator::{self, Random, Shape, LARGE, SMALL};
use ranthelo_tests::guarded::judge::checked_judge;
use ranthelo_tests::guarded::walking::{checked_add_test, checked_take};
use ranthelo_tests::listed::{self, spelled};
use ranthelo_tests::passing;
use ranthelo_tests::reference::{read, Refusal, Sheet, MOST_BYTES, MOST_PRESSES, MOST_TESTS};

const START: u8 = 0;
const LAST: u8 = 1;
const END: u8 = 2;

fn refused<T>(number: usize, place: usize) -> Result<T, Refusal> {
    Err(Refusal { number, place })
}

fn open_pairs(bytes: &[u8]) -> usize {
    read(bytes).map_or(0, |reading| reading.sheet.summary().open_pairs)
}

/// A walk: the sheet as it is now, and the place.
struct Walk {
    sheet: Vec<u8>,
    place: u8,
    last: Vec<u8>,
}

impl Walk {
    fn new(sheet: Vec<u8>) -> Self {
        Walk {
            sheet,
            place: START,
            last: Vec::new(),
        }
    }

    fn take(&mut self) -> Option<Passing> {
        let open = open_pairs(&self.sheet);
        let taken = checked_take(&self.sheet, self.place, &self.last, (32, 256), open);
        let taken = taken.unwrap_or_else(|refusal| panic!("{refusal:?}: {}", spelled(&self.sheet)));
        match &taken {
            Some(passing) => {
                self.place = LAST;
                self.last.clone_from(&passing.board);
            }
            None => self.place = END,
        }
        taken
    }

    fn add(&mut self, test: &[u8]) {
        let longer = checked_add_test(&self.sheet, test, MOST_BYTES);
        self.sheet = longer.expect("a test that fits");
    }

    /// The boards from here to the end.
    fn rest(&mut self) -> Vec<Passing> {
        std::iter::from_fn(|| self.take()).collect()
    }
}

/// What passes a sheet's list, each with what compare shows.
fn passing(sheet: &Sheet) -> Vec<Passing> {
    let machine = Machine::new(sheet);
    let compared = |board: Vec<u8>| Passing {
        sequence: machine.mutant(&board).distinguish(),
        board,
    };
    machine.passing().map(compared).collect()
}

fn conforms(board: &[u8]) -> Passing {
    let board = board.to_vec();
    Passing {
        board,
        sequence: None,
    }
}

fn departs(board: &[u8], sequence: &[u8]) -> Passing {
    Passing {
        board: board.to_vec(),
        sequence: Some(sequence.to_vec()),
    }
}

#[test]
fn listed_walks() {
    let p1 = [conforms(&[0]), departs(&[1], &[0, 1, 0])];
    assert_eq!(Walk::new(listed::p1()).rest(), p1);
    let p4: Vec<_> = (0..4u8)
        .flat_map(|c| [conforms(&[c, 0]), departs(&[c, 1], &[0, 1, 0])])
        .collect();
    assert_eq!(Walk::new(listed::p4()).rest(), p4);
    assert_eq!(Walk::new(listed::p6()).rest(), [conforms(&[])]);
    for (name, bytes) in listed::all() {
        let Ok(reading) = read(&bytes) else { continue };
        if !name.starts_with("32") {
            assert_eq!(Walk::new(bytes).rest(), passing(&reading.sheet), "{name}");
        }
    }
}

/// P4 with the test 0 1 0 added: at the start, after three boards, and after the end.
#[test]
fn a_test_added_to_p4() {
    let rest = |taken: usize| {
        let mut walk = Walk::new(listed::p4());
        for _ in 0..taken {
            walk.take();
        }
        walk.add(&[0, 1, 0]);
        walk.rest()
            .iter()
            .map(|p| p.board.clone())
            .collect::<Vec<_>>()
    };
    assert_eq!(rest(0), [[0, 0], [1, 0], [2, 0], [3, 0]]);
    assert_eq!(rest(3), [[2, 0], [3, 0]]);
    assert_eq!(rest(9), [[0; 2]; 0]);
}

/// The sheet with one test more.
fn with_test(sheet: &Sheet, test: &[u8]) -> Sheet {
    let mut longer = sheet.clone();
    longer.tests.push(test.to_vec());
    longer
}

/// A test of the sheet: a defined sequence, sometimes one that tells a board apart.
fn some_test(random: &mut Random, sheet: &Sheet) -> Vec<u8> {
    let length = random.below(9);
    let test = generator::walk(random, sheet, length);
    let survivor = random.chance(50).then(|| Machine::new(sheet).judge());
    survivor
        .flatten()
        .map_or(test, |survivor| survivor.sequence)
}

/// Whole walks, with tests added at any place, by enumeration.
#[test]
fn whole_walks() {
    let mut random = Random::new(0x5EED_0801);
    let (mut added, mut left_out) = (0, 0);
    for i in 0..6_000 {
        let boards = if i % 50 == 0 { 2_000 } else { 120 };
        let mut sheet = generator::sheet(&mut random, &Shape { boards, ..SMALL });
        let judged = Machine::new(&sheet).judge();
        let mut walk = Walk::new(sheet.encode());
        let (mut taken, mut longer) = (Vec::new(), false);
        let mut rest = passing(&sheet).into_iter();
        let often = random.pick(&[0, 0, 2, 20]);
        loop {
            if sheet.tests.len() < MOST_TESTS && random.chance(often) {
                let test = some_test(&mut random, &sheet);
                sheet = with_test(&sheet, &test);
                walk.add(&test);
                assert_eq!(walk.sheet, sheet.encode());
                let last = walk.last.clone();
                let later =
                    |p: &Passing| walk.place == START || (walk.place == LAST && p.board > last);
                let before = rest.len();
                rest = passing(&sheet)
                    .into_iter()
                    .filter(later)
                    .collect::<Vec<_>>()
                    .into_iter();
                left_out += before - rest.len();
                (added, longer) = (added + 1, true);
            }
            let next = walk.take();
            assert_eq!(next, rest.next(), "{}", spelled(&walk.sheet));
            let Some(next) = next else { break };
            taken.push(next);
        }
        assert!(taken.windows(2).all(|two| two[0].board < two[1].board));
        if !longer {
            let first = taken.iter().find(|p| p.sequence.is_some());
            let told = first.map(|p| (p.board.clone(), p.sequence.clone().unwrap()));
            assert_eq!(told, judged.map(|s| (s.board, s.sequence)));
            assert_eq!(taken, passing(&sheet));
        }
        assert_eq!(walk.take(), None);
        if sheet.tests.len() < MOST_TESTS {
            walk.add(&[]);
        }
        assert_eq!(walk.take(), None);
    }
    assert!(added > 2_000 && left_out > 2_000, "{added}, {left_out}");
}

/// Any place, also boards that are none of the sheet's, any buffers, any bytes.
#[test]
fn any_takes() {
    let mut random = Random::new(0x5EED_0802);
    let (mut numbers, mut taken) = ([0; 25], 0);
    for _ in 0..40_000 {
        let sheet = generator::sheet(
            &mut random,
            &Shape {
                boards: 60,
                ..SMALL
            },
        );
        let counts = Machine::new(&sheet).counts();
        let last = generator::any_board(&mut random, &counts);
        let place = random.pick(&[START, LAST, LAST, LAST, LAST, END, 3, 255]);
        let mut bytes = sheet.encode();
        if random.chance(10) {
            bytes = generator::damaged(&mut random, &bytes);
        }
        let (open, states) = read(&bytes).map_or((0, 1), |reading| {
            let summary = reading.sheet.summary();
            (summary.open_pairs, summary.states)
        });
        if Machine::new(&sheet).boards().count() > 2_000 {
            continue;
        }
        let room = |random: &mut Random, n: usize| match random.chance(70) {
            true => n + random.below(3),
            false => n.saturating_sub(random.below(2)),
        };
        let rooms = (room(&mut random, open), room(&mut random, states * states));
        if open > 6 {
            continue;
        }
        let answer = checked_take(&bytes, place, &last, rooms, open);
        let expected = enumeration::take(&bytes, place, &last, rooms.0, rooms.1);
        assert_eq!(
            answer,
            expected,
            "{place}, {last:?}, {rooms:?}: {}",
            spelled(&bytes)
        );
        match answer {
            Ok(next) => taken += usize::from(next.is_some()),
            Err(refusal) => numbers[refusal.number] += 1,
        }
    }
    assert!(taken > 5_000 && numbers[13] > 500 && numbers[14] > 500 && numbers[16] > 500);
}

#[test]
fn refusals_of_take_come_in_order() {
    let p4 = listed::p4();
    let take = |place, last: &[u8], rooms| checked_take(&p4, place, last, rooms, 2);
    assert_eq!(checked_take(&p4[..9], LAST, &[9], (0, 0), 0), refused(2, 9));
    assert_eq!(take(LAST, &[0], (0, 0)), refused(13, 0));
    assert_eq!(take(LAST, &[0, 0, 0], (0, 0)), refused(13, 0));
    assert_eq!(take(LAST, &[4, 2], (0, 0)), refused(14, 0));
    assert_eq!(take(LAST, &[3, 2], (0, 0)), refused(14, 1));
    assert_eq!(take(LAST, &[3, 1], (1, 3)), refused(16, 0));
    for place in [START, LAST, END, 200] {
        assert_eq!(take(place, &[3, 1], (2, 3)), refused(16, 1));
    }
    // only the last board is looked at
    assert_eq!(take(START, &[9], (2, 4)), Ok(Some(conforms(&[0, 0]))));
    assert_eq!(take(END, &[9], (2, 4)), Ok(None));
    assert_eq!(take(200, &[9], (2, 4)), Ok(None));
    assert_eq!(take(LAST, &[3, 1], (2, 4)), Ok(None));
    assert_eq!(
        take(LAST, &[3, 0], (2, 4)),
        Ok(Some(departs(&[3, 1], &[0, 1, 0])))
    );
}

/// Judge shows the first departing board of a walk.
#[test]
fn judge_shows_the_first_departing_board() {
    let mut random = Random::new(0x5EED_0803);
    for _ in 0..3_000 {
        let sheet = generator::sheet(
            &mut random,
            &Shape {
                boards: 200,
                ..SMALL
            },
        );
        let bytes = sheet.encode();
        let first = Walk::new(bytes.clone())
            .rest()
            .into_iter()
            .find(|p| p.sequence.is_some());
        let judged = checked_judge(&bytes, 32, 256, open_pairs(&bytes)).expect("an accepted sheet");
        let told = judged.map(|s| Passing {
            board: s.board,
            sequence: Some(s.sequence),
        });
        assert_eq!(told, first, "{}", spelled(&bytes));
    }
}

/// Sheets with too many boards to try them all, against a search of its own: takes from the start, from boards taken
/// and from any board.
#[test]
fn large_sheets() {
    let mut random = Random::new(0x5EED_0804);
    let (mut compared, mut ended, mut gave_up) = (0, 0, 0);
    for _ in 0..400 {
        let mut sheet = generator::sheet(&mut random, &LARGE);
        for _ in 0..random.below(12) {
            let length = random.below(40);
            let test = generator::walk(&mut random, &sheet, length);
            sheet.tests.push(test);
        }
        let bytes = sheet.encode();
        if read(&bytes).is_err() {
            continue;
        }
        let machine = Machine::new(&sheet);
        let mut last = random
            .chance(60)
            .then(|| generator::board(&mut random, &machine.counts()));
        for _ in 0..12 {
            let mut second = passing::Passing::new(&machine, 30_000);
            let Ok(expected) = second.next(last.as_deref()) else {
                gave_up += 1;
                break;
            };
            let (place, from) = last
                .as_ref()
                .map_or((START, &[][..]), |last| (LAST, last.as_slice()));
            let taken = checked_take(&bytes, place, from, (32, 256), machine.counts().len());
            let taken = taken.expect("a board of the sheet");
            assert_eq!(
                taken.as_ref().map(|p| &p.board),
                expected.as_ref(),
                "{from:?}: {}",
                spelled(&bytes)
            );
            let Some(taken) = taken else {
                ended += 1;
                break;
            };
            assert_eq!(taken.sequence, machine.mutant(&taken.board).distinguish());
            compared += 1;
            last = Some(taken.board);
        }
    }
    assert!(
        compared > 1_000 && ended > 5,
        "{compared}, {ended}, {gave_up}"
    );
}

/// Tests and what is no test, added to any sheet, with any buffer.
#[test]
fn any_additions() {
    let mut random = Random::new(0x5EED_0805);
    let mut numbers = [0; 25];
    for _ in 0..60_000 {
        let bytes = match random.below(100) {
            0 => generator::at_limit(&mut random),
            1 => generator::many_tests(random.between(255, 256), 0),
            2..=9 => generator::any_bytes(&mut random),
            10..=29 => generator::sheet(&mut random, &LARGE).encode(),
            _ => generator::sheet(&mut random, &SMALL).encode(),
        };
        let length = random.pick(&[0, 1, 3, 8, 8, 30, 256, 257, 300]);
        let mut presses = match read(&bytes) {
            Ok(reading) => generator::walk(&mut random, &reading.sheet, length),
            Err(_) => vec![0; length],
        };
        if random.chance(30) && !presses.is_empty() {
            let place = random.below(presses.len());
            presses[place] = random.pick(&[0, 1, 2, 15, 16, 255]);
        }
        let room = match random.below(3) {
            0 => MOST_BYTES,
            1 => bytes.len() + 1 + 2 * presses.len(),
            _ => (bytes.len() + 2 * presses.len()).saturating_sub(random.below(3)),
        };
        let answer = checked_add_test(&bytes, &presses, room);
        let expected = enumeration::add_test(&bytes, &presses, room);
        assert_eq!(answer, expected, "{presses:?}, {room}: {}", spelled(&bytes));
        match answer {
            Ok(longer) => {
                assert_eq!(
                    read(&longer).expect("accepted").sheet.tests.last(),
                    Some(&presses)
                );
                numbers[0] += 1;
            }
            Err(refusal) => numbers[refusal.number] += 1,
        }
    }
    for number in [0, 5, 8, 9, 16] {
        assert!(numbers[number] > 100, "{number}: {numbers:?}");
    }
}

#[test]
fn limits_and_refusals_of_an_addition() {
    let add = checked_add_test;
    // 8 at 0 before 5; 255 tests and one more
    let full = generator::many_tests(MOST_TESTS, 0);
    assert_eq!(add(&full, &[9], 0), refused(8, 0));
    let longer = add(&generator::many_tests(MOST_TESTS - 1, 0), &[], MOST_BYTES);
    assert_eq!(longer, Ok(full));
    // 5 before 8 and 9, 8 before 9, each at its press
    let two = Sheet {
        presses: 2,
        ..read(&generator::many_tests(0, 0)).unwrap().sheet
    };
    let two = two.encode();
    let most = vec![0; MOST_PRESSES];
    assert!(add(&two, &most, MOST_BYTES).is_ok());
    for (press, number) in [(0, 8), (1, 8), (2, 5), (255, 5)] {
        let presses = [&most[..], &[press]].concat();
        assert_eq!(add(&two, &presses, 0), refused(number, MOST_PRESSES));
    }
    assert_eq!(add(&two, &[0, 1], 0), refused(9, 1));
    assert_eq!(add(&two, &[0, 2, 1], 0), refused(5, 1));
    // 16,384 bytes and one more; 1 before 16, after 9
    let long = generator::of_length(MOST_BYTES - 3);
    assert_eq!(
        add(&long, &[0], MOST_BYTES).map(|s| s.len()),
        Ok(MOST_BYTES)
    );
    assert_eq!(add(&long, &[0], MOST_BYTES - 1), refused(16, 0));
    assert_eq!(add(&long, &[0, 0], 0), refused(1, 0));
    assert_eq!(add(&long, &[0, 1], 0), refused(5, 1));
    let p4 = listed::p4();
    assert_eq!(add(&p4, &[1], p4.len() + 3), refused(9, 0));
    assert_eq!(add(&p4, &[0], p4.len() + 2), refused(16, 0));
    assert!(add(&p4, &[0], p4.len() + 3).is_ok());
    assert_eq!(add(&p4[..9], &[0], 0), refused(2, 9));
}
