//! The bench station through the library, against the one written from 02, with every board of small sheets as the
//! lock.

use ranthelo_tests::enumeration::{self, Failure, Machine, Mutant};
use ranthelo_tests::generator::{self, Random, Shape, SMALL};
use ranthelo_tests::guarded::station::{
    checked_begin, checked_change, checked_next, checked_sound,
};
use ranthelo_tests::listed::{self, spelled};
use ranthelo_tests::reference::{read, Refusal, Sheet, MOST_BYTES};
use ranthelo_tests::station::{self, State, Step};

fn refused<T>(number: usize) -> Result<T, Refusal> {
    Err(Refusal { number, place: 0 })
}

fn sheet_of(bytes: &[u8]) -> Sheet {
    read(bytes).expect("an accepted sheet").sheet
}

/// The sheet is refused, or has few enough boards to try them all.
fn is_small(bytes: &[u8]) -> bool {
    read(bytes).map_or(true, |reading| {
        let counts = Machine::new(&reading.sheet).counts();
        let boards = |counts: &[usize]| counts.iter().map(|&count| count as f64).product::<f64>();
        boards(&counts) <= 500.0
    })
}

/// A station of the library with its sheet and its state, each call held to the one written from 02.
#[derive(Clone)]
struct Station {
    sheet: Vec<u8>,
    state: [usize; 4],
}

impl Station {
    /// Numbers that were there before do not matter.
    fn begin(sheet: &[u8], before: [usize; 4]) -> Result<Self, Refusal> {
        let (result, state) = checked_begin(sheet, before);
        let expected = station::begin(sheet);
        assert_eq!(result, expected.map(|_| ()), "{}", spelled(sheet));
        result.map(|()| Station {
            sheet: sheet.to_vec(),
            state,
        })
    }

    fn new(sheet: &[u8]) -> Self {
        Self::begin(sheet, [7; 4]).expect("a complete list")
    }

    /// The numbers after a call: those of the state that the other station leaves.
    fn keep(&mut self, left: [usize; 4], expected: Option<State>) {
        let expected = expected.map_or(self.state, State::numbers);
        assert_eq!(
            left,
            expected,
            "{:?} of {}",
            self.state,
            spelled(&self.sheet)
        );
        self.state = left;
    }

    fn next(&mut self) -> Result<Step, Refusal> {
        let (result, left) = checked_next(&self.sheet, self.state);
        let expected = station::next(&self.sheet, State::of(self.state));
        assert_eq!(
            result,
            expected.map(|(step, _)| step),
            "{:?} of {}",
            self.state,
            spelled(&self.sheet)
        );
        self.keep(left, expected.ok().map(|(_, state)| state));
        result
    }

    fn sound(&mut self, sound: u8) -> Result<Option<Failure>, Refusal> {
        let (result, left) = checked_sound(&self.sheet, self.state, sound);
        let expected = station::sound(&self.sheet, State::of(self.state), sound);
        assert_eq!(
            result,
            expected.map(|(failure, _)| failure),
            "{:?} of {}",
            self.state,
            spelled(&self.sheet)
        );
        self.keep(left, expected.ok().map(|(_, state)| state));
        result
    }

    fn change(&mut self, changed: &[u8]) -> Result<(), Refusal> {
        let result = checked_change(&self.sheet, changed, self.state);
        let expected = station::change(&self.sheet, changed, State::of(self.state));
        assert_eq!(
            result,
            expected,
            "{:?} of {}, {}",
            self.state,
            spelled(&self.sheet),
            spelled(changed)
        );
        if result.is_ok() {
            self.sheet = changed.to_vec();
        }
        result
    }
}

fn pulse(test: usize) -> Result<Step, Refusal> {
    Ok(Step::Pulse { test })
}

fn press(press: u8, position: usize) -> Result<Step, Refusal> {
    Ok(Step::Press { press, position })
}

const TAKEN: Result<Option<Failure>, Refusal> = Ok(None);

/// P2 driven to pass: sounds when no press is due, or not below m, and a press given three times.
#[test]
fn p2_passes() {
    let mut station = Station::new(&listed::p2());
    assert_eq!(station.sound(1), refused(24));
    assert_eq!(station.next(), pulse(0));
    assert_eq!(station.sound(1), refused(24));
    for _ in 0..3 {
        assert_eq!(station.next(), press(0, 0));
        assert_eq!(station.state, [1, 0, 1, 0]);
    }
    assert_eq!(station.sound(2), refused(24));
    assert_eq!(station.sound(1), TAKEN);
    assert_eq!(station.sound(1), refused(24));
    assert_eq!(station.next(), press(1, 1));
    assert_eq!(station.sound(1), TAKEN);
    assert_eq!(station.next(), press(0, 2));
    assert_eq!(station.sound(1), TAKEN);
    assert_eq!(station.state, [1, 3, 0, 0]);
    for _ in 0..3 {
        assert_eq!(station.next(), Ok(Step::Pass));
        assert_eq!(station.sound(1), refused(24));
        assert_eq!(station.change(&listed::p2()), refused(23));
        assert_eq!(station.state, [1, 3, 0, 1]);
    }
}

/// With a wrong sound it is driven to its failure, told at once and again.
#[test]
fn p2_fails() {
    let mut station = Station::new(&listed::p2());
    assert_eq!(station.next(), pulse(0));
    for position in 0..2 {
        assert_eq!(station.next(), press(position as u8, position));
        assert_eq!(station.sound(1), TAKEN);
    }
    assert_eq!(station.next(), press(0, 2));
    let failure = Failure {
        test: 0,
        position: 2,
    };
    assert_eq!(station.sound(0), Ok(Some(failure)));
    for _ in 0..3 {
        assert_eq!(station.next(), Ok(Step::Failure(failure)));
        assert_eq!(station.sound(0), refused(24));
        assert_eq!(station.change(&listed::p2()), refused(23));
        assert_eq!(station.state, [1, 2, 0, 2]);
    }
}

/// A changed sheet mid-test: what reading refuses, 22, each 23, and one that goes on.
#[test]
fn changes_of_p2() {
    let p2 = sheet_of(&listed::p2());
    let with = |change: fn(&mut Sheet)| {
        let mut sheet = p2.clone();
        change(&mut sheet);
        sheet.encode()
    };
    let mut station = Station::new(&listed::p2());
    assert_eq!(station.next(), pulse(0));
    assert_eq!(station.next(), press(0, 0));
    let cut = &listed::p2()[..20];
    let end = Refusal {
        number: 2,
        place: 19,
    };
    assert_eq!(station.change(cut), Err(end));
    assert_eq!(station.change(&listed::p1()), refused(22));
    let other_rule: fn(&mut Sheet) = |sheet| {
        sheet.rules.insert((1, 0), (1, 1));
    };
    let poorer = |sheet: &mut Sheet| {
        sheet.rules.insert((1, 0), (1, 1));
        sheet.tests[0].pop();
    };
    assert_eq!(station.change(&with(poorer)), refused(22), "22 before 23");
    let unequal: [fn(&mut Sheet); 6] = [
        |sheet| sheet.sounds += 1,
        |sheet| sheet.quiet = true,
        |sheet| {
            sheet.rules.insert((1, 0), (1, 1));
            sheet.faults.clear();
        },
        |sheet| sheet.tests[0].push(0),
        |sheet| sheet.tests.insert(0, vec![]),
        |sheet| {
            sheet.tests.clear();
            sheet.faults.clear();
        },
    ];
    assert_eq!(station.change(&with(other_rule)), refused(22));
    for change in unequal {
        assert_eq!(station.change(&with(change)), refused(23));
        assert_eq!(station.state, [1, 0, 1, 0]);
    }
    let longer = with(|sheet| {
        sheet.faults.clear();
        sheet.starts.insert(1);
        sheet.tests.push(vec![1]);
    });
    assert_eq!(station.change(&longer), Ok(()));
    assert_eq!(station.next(), press(0, 0), "the same press");
    for position in 0..3 {
        assert_eq!(station.next(), press(position % 2, position.into()));
        assert_eq!(station.sound(1), TAKEN);
    }
    assert_eq!(station.next(), pulse(1));
    assert_eq!(station.next(), press(1, 0));
    assert_eq!(station.sound(0), TAKEN);
    assert_eq!(station.next(), Ok(Step::Pass));
}

/// Every single byte changed, and every front of the sheet, at each place of P2's history.
#[test]
fn every_change_of_a_byte() {
    let p2 = listed::p2();
    let mut station = Station::new(&p2);
    let mut begins = Vec::new();
    loop {
        for place in 0..p2.len() {
            for byte in 0..=9 {
                let mut changed = p2.clone();
                changed[place] = byte;
                if is_small(&changed) {
                    station.clone().change(&changed).ok();
                    begins.push(Station::begin(&changed, station.state).is_ok());
                }
            }
            station.clone().change(&p2[..place]).ok();
        }
        match station.next() {
            Ok(Step::Pass) => break,
            Ok(Step::Press { .. }) => assert_eq!(station.sound(1), TAKEN),
            _ => {}
        }
    }
    assert!(begins.contains(&true) && begins.contains(&false));
}

/// A lock: a board, the presses since its last pulse, and all that it got.
struct Lock<'a> {
    board: &'a Mutant<'a>,
    since: Option<Vec<u8>>,
    got: Vec<Option<u8>>,
}

impl<'a> Lock<'a> {
    fn new(board: &'a Mutant<'a>) -> Self {
        Lock {
            board,
            since: None,
            got: vec![],
        }
    }

    fn pulse(&mut self) {
        self.since = Some(vec![]);
        self.got.push(None);
    }

    fn press(&mut self, press: u8) -> u8 {
        let since = self.since.as_mut().expect("a pulse came first");
        since.push(press);
        self.got.push(Some(press));
        self.board.outputs(since).last().expect("a sound")
    }
}

/// All pulses (none) and presses of a list.
fn events(sheet: &Sheet) -> Vec<Option<u8>> {
    let test = |test: &Vec<u8>| {
        let presses = test.iter().copied().map(Some);
        [None].into_iter().chain(presses).collect::<Vec<_>>()
    };
    sheet.tests.iter().flat_map(test).collect()
}

/// On random pulses and presses the lock gives every specified sound: after an undefined press none is, until the next
/// pulse.
fn gives_all(random: &mut Random, sheet: &Sheet, board: &Mutant) {
    let mut lock = Lock::new(board);
    lock.pulse();
    let mut state = Some(0);
    for _ in 0..random.below(60) {
        if random.chance(20) {
            lock.pulse();
            state = Some(0);
            continue;
        }
        let press = random.below(sheet.presses.into()) as u8;
        let sound = lock.press(press);
        let rule = state.and_then(|state| sheet.rules.get(&(state, press)));
        if let Some(&(specified, _)) = rule {
            assert_eq!(sound, specified, "{}", spelled(&sheet.encode()));
        }
        state = rule.map(|&(_, next)| next);
    }
}

/// A small sheet with a complete list.
fn complete_sheet(random: &mut Random) -> Sheet {
    let shape = Shape {
        boards: 60,
        tests: 3,
        ..SMALL
    };
    let sheet = generator::sheet(random, &shape);
    let made = enumeration::make(&sheet.encode(), MOST_BYTES).expect("room for the tests");
    sheet_of(&made.sheet)
}

/// Calls that are refused and leave everything as it is, and a press given again.
fn disturb(random: &mut Random, station: &mut Station, due: bool) {
    let sounds = sheet_of(&station.sheet).sounds;
    match random.below(4) {
        0 if !due => assert_eq!(station.sound(random.below(256) as u8), refused(24)),
        0 => assert_eq!(
            station.sound(random.between(sounds.into(), 255) as u8),
            refused(24)
        ),
        1 => {
            let noise = generator::noise(random);
            if is_small(&noise) {
                assert!(station.change(&noise).is_err() || read(&noise).is_ok());
            }
        }
        2 if due => {
            let before = station.state;
            assert!(matches!(station.next(), Ok(Step::Press { .. })));
            assert_eq!(station.state, before);
        }
        _ => {}
    }
}

/// Drives the lock until the verdict, with changed sheets of the given kind on the way.
fn drive(
    random: &mut Random,
    station: &mut Station,
    lock: &mut Lock,
    changed: &mut dyn FnMut(&mut Random, &Station) -> Option<Vec<u8>>,
) -> Option<Failure> {
    loop {
        disturb(random, station, false);
        if let Some(changed) = changed(random, station) {
            station.change(&changed).ok();
        }
        match station.next().expect("an accepted sheet") {
            Step::Pulse { .. } => lock.pulse(),
            Step::Pass => return None,
            Step::Failure(failure) => panic!("{failure:?} was not told at once"),
            Step::Press { press, .. } => {
                let sound = lock.press(press);
                disturb(random, station, true);
                if let Some(changed) = changed(random, station) {
                    station.change(&changed).ok();
                }
                if let Some(failure) = station.sound(sound).expect("a press is due") {
                    return Some(failure);
                }
            }
        }
    }
}

/// Every board of small sheets as the lock, no changed sheet: the verdict is the board's first failed test; one that is
/// passed gives every specified sound.
#[test]
fn every_board_as_the_lock() {
    let mut random = Random::new(0x5EED_1301);
    let (mut passed, mut failed) = (0, 0);
    for _ in 0..400 {
        let sheet = complete_sheet(&mut random);
        let machine = Machine::new(&sheet);
        for board in machine.boards() {
            let board = machine.mutant(&board);
            let mut lock = Lock::new(&board);
            let mut station = Station::new(&sheet.encode());
            let failure = drive(&mut random, &mut station, &mut lock, &mut |_, _| None);
            assert_eq!(
                failure,
                board.first_failed(),
                "{}",
                spelled(&sheet.encode())
            );
            let all = events(&sheet);
            assert_eq!(lock.got, all[..lock.got.len()]);
            match failure {
                Some(failure) => {
                    assert_eq!(
                        lock.got.last(),
                        Some(&Some(sheet.tests[failure.test][failure.position]))
                    );
                    assert_eq!(station.next(), Ok(Step::Failure(failure)));
                    failed += 1;
                }
                None => {
                    assert_eq!(lock.got, all);
                    assert_eq!(station.next(), Ok(Step::Pass));
                    gives_all(&mut random, &sheet, &board);
                    passed += 1;
                }
            }
        }
    }
    assert!(passed > 1_000 && failed > 1_000, "{passed} {failed}");
}

/// A sheet changed so that it may do: other faults, starts, later tests; or in anything at all.
fn changed_sheet(random: &mut Random, station: &Station) -> Option<Vec<u8>> {
    if random.chance(70) {
        return None;
    }
    let mut sheet = sheet_of(&station.sheet);
    let begun = station.state[0];
    for _ in 0..random.between(1, 2) {
        match random.below(10) {
            0 => sheet
                .tests
                .truncate(begun.max(random.below(sheet.tests.len() + 1))),
            1 => {
                let length = random.below(9);
                let test = generator::walk(random, &sheet, length);
                let place = random.between(begun.min(sheet.tests.len()), sheet.tests.len());
                sheet.tests.insert(place, test);
            }
            2 => sheet.faults.retain(|_| random.chance(60)),
            3 => sheet.starts.clear(),
            4 => sheet
                .starts
                .extend((1..sheet.states).filter(|_| random.chance(40))),
            5 => sheet.quiet ^= random.chance(30),
            6 if random.chance(30) => sheet.sounds = sheet.sounds % 16 + 1,
            7 if random.chance(30) => {
                let place = random.below(sheet.tests.len() + 1);
                sheet.tests.truncate(place);
            }
            8 if random.chance(30) => {
                let rule = sheet.rules.values_mut().next()?;
                rule.0 = (rule.0 + 1) % sheet.sounds;
            }
            9 if random.chance(30) => sheet.tests.reverse(),
            _ => {}
        }
    }
    let bytes = sheet.encode();
    if random.chance(5) {
        let damaged = generator::damaged(random, &bytes);
        return is_small(&damaged).then_some(damaged);
    }
    if read(&bytes).is_err() || !is_small(&bytes) {
        return None;
    }
    match random.chance(70) {
        true => enumeration::make(&bytes, MOST_BYTES)
            .ok()
            .map(|made| made.sheet),
        false => Some(bytes),
    }
}

/// Random histories with changed sheets, good and bad: what the lock got is the list of the last sheet, which it gives
/// as specified if it is passed and a board of that sheet.
#[test]
fn random_histories() {
    let mut random = Random::new(0x5EED_1302);
    let (mut passed, mut failed, mut boards, mut changes) = (0, 0, 0, 0);
    for _ in 0..6_000 {
        let first = complete_sheet(&mut random);
        let machine = Machine::new(&first);
        let choices = generator::board(&mut random, &machine.counts());
        let board = match random.chance(50) {
            true => machine.mutant(&choices),
            false => machine.mutant(&vec![0; choices.len()]),
        };
        let mut lock = Lock::new(&board);
        let mut station = Station::new(&first.encode());
        let failure = drive(&mut random, &mut station, &mut lock, &mut changed_sheet);
        let last = sheet_of(&station.sheet);
        changes += usize::from(last != first);
        assert_eq!(
            Machine::new(&last).judge(),
            None,
            "the last list is complete"
        );
        let all = events(&last);
        assert_eq!(lock.got, all[..lock.got.len()]);
        if failure.is_some() {
            failed += 1;
            continue;
        }
        assert_eq!(lock.got, all);
        passed += 1;
        let machine = Machine::new(&last);
        let as_board = machine
            .boards()
            .any(|choices| behaves_as(&machine.mutant(&choices), &board, &last));
        if as_board {
            gives_all(&mut random, &last, &board);
            boards += 1;
        }
    }
    let met = [passed, failed, boards, changes];
    assert!(met.iter().all(|&number| number > 500), "{met:?}");
}

/// The two give the same sounds on every sequence, by all sequences of three presses and some longer ones.
fn behaves_as(first: &Mutant, second: &Mutant, sheet: &Sheet) -> bool {
    let presses = usize::from(sheet.presses);
    let short = (0..presses.pow(3))
        .map(|i| vec![i % presses, i / presses % presses, i / presses / presses]);
    let mut random = Random::new(13);
    let long = (0..60).map(|_| (0..40).map(|_| random.below(presses)).collect());
    short.chain(long).all(|sequence: Vec<usize>| {
        let sequence: Vec<u8> = sequence.iter().map(|&x| x as u8).collect();
        first.outputs(&sequence).eq(second.outputs(&sequence))
    })
}

/// Any four numbers are a state.
fn any_state(random: &mut Random) -> [usize; 4] {
    let large = [usize::MAX, usize::MAX - 1, 1 << 40, 255, 256, 257];
    let small = |random: &mut Random, bound| match random.chance(85) {
        true => random.below(bound),
        false => random.pick(&large),
    };
    [
        small(random, 8),
        small(random, 10),
        small(random, 2),
        match random.chance(60) {
            true => 0,
            false => small(random, 4),
        },
    ]
}

/// States that no call left, sheets of any kind, and calls of any kind.
#[test]
fn garbage_states() {
    let mut random = Random::new(0x5EED_1303);
    let mut met = [0; 8];
    for i in 0..60_000 {
        let sheet = match i % 4 {
            0 => generator::any_bytes(&mut random),
            1 => complete_sheet(&mut random).encode(),
            _ => generator::sheet(
                &mut random,
                &Shape {
                    boards: 60,
                    ..SMALL
                },
            )
            .encode(),
        };
        let state = any_state(&mut random);
        let mut station = Station { sheet, state };
        met[match station.next() {
            Ok(Step::Pulse { .. }) => 0,
            Ok(Step::Press { .. }) => 1,
            Ok(Step::Pass) => 2,
            Ok(Step::Failure(_)) => 3,
            Err(_) => 4,
        }] += 1;
        station.state = state;
        let bound = if random.chance(90) { 4 } else { 256 };
        let sound = random.below(bound) as u8;
        met[5] += usize::from(station.sound(sound).is_ok());
        station.state = state;
        let changed = match random.below(3) {
            0 => station.sheet.clone(),
            1 => generator::damaged(&mut random, &station.sheet),
            _ => complete_sheet(&mut random).encode(),
        };
        if is_small(&changed) {
            met[6] += usize::from(station.change(&changed).is_ok());
            met[7] += usize::from(Station::begin(&changed, state).is_ok());
        }
    }
    assert!(met.iter().all(|&number| number > 300), "{met:?}");
}

/// Sheets with 256 tests, with a test of 256 presses, and with no test, to the end.
#[test]
fn at_the_limits() {
    for sheet in [
        generator::many_tests(256, 0),
        generator::many_tests(256, 3),
        generator::long_test(256),
        listed::p6(),
        listed::p10(),
    ] {
        let sheet = sheet_of(&sheet);
        let machine = Machine::new(&sheet);
        let board = machine.mutant(&vec![0; machine.counts().len()]);
        let mut lock = Lock::new(&board);
        let mut station = Station::new(&sheet.encode());
        let mut random = Random::new(1);
        let failure = drive(&mut random, &mut station, &mut lock, &mut |_, _| None);
        assert_eq!(failure, None);
        assert_eq!(lock.got, events(&sheet));
    }
}

/// A first sheet that reading refuses, or whose list is not complete.
#[test]
fn first_sheets() {
    for (name, bytes) in listed::all() {
        if !name.starts_with("32") {
            Station::begin(&bytes, [1, 2, 3, 4]).ok();
        }
    }
    assert_eq!(
        Station::begin(&listed::p1(), [0; 4]).map(|_| ()),
        refused(22)
    );
    let mut random = Random::new(0x5EED_1304);
    for _ in 0..20_000 {
        let bytes = generator::any_bytes(&mut random);
        if let Err(refusal) = read(&bytes) {
            let state = any_state(&mut random);
            assert_eq!(checked_begin(&bytes, state), (Err(refusal), state));
        }
    }
}
