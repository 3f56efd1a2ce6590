//! The package's own view of a sheet, against the library and the enumeration: open pairs, choices, steps; and answers
//! in words.

use ranthelo::machine::{Machine, Origin, Site};
use ranthelo::{explain, Comparison, Names, Verdict};
use ranthelo_tests::enumeration;
use ranthelo_tests::generator::{self, Random, Shape, LARGE, SMALL};
use ranthelo_tests::listed::{self, spelled};
use ranthelo_tests::reference::{read, Sheet};

fn machine(bytes: &[u8]) -> Machine {
    Machine::of(bytes).expect("an accepted sheet")
}

/// The sounds of a board by the package's own steps.
fn sounds(machine: &Machine, board: &[u8], presses: &[u8]) -> Vec<u8> {
    let board = machine.with(board).expect("a board");
    let mut state = board.wake().to.next;
    let step = |&press: &u8| {
        let to = board.step(state, press).to;
        state = to.next;
        to.sound
    };
    presses.iter().map(step).collect()
}

/// The open pairs used, by the package's own steps.
fn used(machine: &Machine, board: &[u8], presses: &[u8]) -> u32 {
    let board = machine.with(board).expect("a board");
    let wake = board.wake();
    let mut state = wake.to.next;
    let bit = |pair: Option<usize>| pair.map_or(0, |pair| 1 << pair);
    presses.iter().fold(bit(wake.open_pair), |set, &press| {
        let step = board.step(state, press);
        state = step.to.next;
        set | bit(step.open_pair)
    })
}

fn agree(sheet: &Sheet, board: &[u8], presses: &[u8]) {
    let bytes = sheet.encode();
    let machine = machine(&bytes);
    let counts: Vec<usize> = machine
        .open_pairs()
        .iter()
        .map(|pair| pair.choices.len())
        .collect();
    let told = spelled(&bytes);
    assert_eq!(counts, enumeration::Machine::new(sheet).counts(), "{told}");
    let run = ranthelo::run(&bytes, board, presses).expect("a board of the sheet");
    assert_eq!(sounds(&machine, board, presses), run.sounds, "{told}");
    assert_eq!(used(&machine, board, presses), run.used.set, "{told}");
}

#[test]
fn random_boards() {
    let mut random = Random::new(0x5EED_0024);
    for i in 0..20_000 {
        let shape = if i % 20 == 0 { LARGE } else { SMALL };
        let sheet = generator::sheet(&mut random, &shape);
        let counts = enumeration::Machine::new(&sheet).counts();
        let board = generator::board(&mut random, &counts);
        let presses: Vec<u8> = (0..random.below(30))
            .map(|_| random.below(sheet.presses.into()) as u8)
            .collect();
        agree(&sheet, &board, &presses);
    }
}

/// The cells of a line in columns.
fn cells(line: &str) -> Vec<&str> {
    let cells = line.split("   ").map(str::trim);
    cells.filter(|cell| !cell.is_empty()).collect()
}

/// The steps of a departing sequence: the sounds agree until the last step, which departs. No two columns run together.
fn steps_are_told(bytes: &[u8], board: &[u8], sequence: &[u8]) {
    let names = Names::default();
    let steps = explain::sequence(bytes, board, sequence, &names).expect("a board of the sheet");
    let mut lines = steps.lines().map(cells);
    let head = lines.next();
    assert_eq!(head, Some(vec!["position", "press", "specified", "given"]));
    let run = ranthelo::run(bytes, board, sequence).expect("a board of the sheet");
    let lines: Vec<Vec<&str>> = lines.collect();
    assert_eq!(lines.len(), sequence.len(), "{steps}");
    for (i, line) in lines.iter().enumerate() {
        let [position, press, specified, given, notes @ ..] = &line[..] else {
            panic!("{steps}");
        };
        assert_eq!(
            (*position, *press),
            (&*i.to_string(), &*sequence[i].to_string())
        );
        let sound = |cell: &str| cell.split("sound ").nth(1).map(str::to_string);
        assert_eq!(sound(given), Some(run.sounds[i].to_string()), "{steps}");
        let departs = i + 1 == sequence.len();
        assert_eq!(sound(specified) != sound(given), departs, "{steps}");
        let noted = notes.last().is_some_and(|note| note.ends_with("departs"));
        assert_eq!((noted, notes.len() <= 1), (departs, true), "{steps}");
    }
}

/// A line for each choice other than 0, and one for the rest.
fn choices_are_told(bytes: &[u8], board: &[u8]) {
    let told = explain::board(bytes, board, &Names::default()).expect("a board of the sheet");
    let others = board.iter().filter(|&&choice| choice > 0).count();
    let (chosen, rest): (Vec<&str>, Vec<&str>) = told
        .lines()
        .partition(|line| line.starts_with("open pair ") && line.contains(": choice "));
    assert_eq!(chosen.len(), others, "{told}");
    for (line, i) in chosen.iter().zip((0..).filter(|&i| board[i] > 0)) {
        assert!(line.starts_with(&format!("open pair {i}, ")), "{told}");
        assert!(line.contains(&format!(": choice {}, ", board[i])), "{told}");
    }
    let one = others < board.len() || board.is_empty();
    assert_eq!(rest.len(), usize::from(one), "{told}");
}

#[test]
fn survivors() {
    let mut random = Random::new(0x5EED_0025);
    let mut survivors = 0;
    for i in 0..5_000 {
        let shape = if i % 20 == 0 { WIDE } else { SMALL };
        let bytes = generator::sheet(&mut random, &shape).encode();
        let verdict = ranthelo::judge(&bytes).expect("an accepted sheet");
        let told = explain::verdict(&bytes, &verdict, &Names::default()).unwrap();
        let Verdict::Survivor { board, sequence } = verdict else {
            let machine = machine(&bytes);
            let nothing = machine.faults.is_empty() && machine.starts.is_empty();
            assert_eq!(told.contains("so no board departs"), nothing, "{told}");
            assert_eq!(
                told.contains("Every departing board fails"),
                !nothing,
                "{told}"
            );
            continue;
        };
        survivors += 1;
        steps_are_told(&bytes, &board, &sequence);
        choices_are_told(&bytes, &board);
    }
    assert!(survivors > 1_000, "{survivors}");
}

/// Many states, presses and sounds, and few boards.
const WIDE: Shape = Shape {
    boards: 1 << 12,
    open_pairs: 12,
    ..LARGE
};

/// Boards of all kinds: every answer is explained, and no board departs from a sheet without FAULT and START.
#[test]
fn any_board_is_explained() {
    let mut random = Random::new(0x5EED_002C);
    let names = Names::default();
    let (mut conforming, mut passing) = (0, 0);
    for i in 0..5_000 {
        let shape = if i % 10 == 0 { LARGE } else { SMALL };
        let sheet = generator::sheet(&mut random, &shape);
        let bytes = sheet.encode();
        let board = generator::board(&mut random, &enumeration::Machine::new(&sheet).counts());
        choices_are_told(&bytes, &board);
        let comparison = ranthelo::compare(&bytes, &board).expect("a board of the sheet");
        let told = explain::comparison(&bytes, &board, &comparison, &names).unwrap();
        if let Comparison::Departs { sequence } = &comparison {
            assert!(!sheet.faults.is_empty() || !sheet.starts.is_empty());
            steps_are_told(&bytes, &board, sequence);
        } else {
            conforming += 1;
            together(&bytes, &board, &told);
        }
        let trial = ranthelo::first_failed(&bytes, &board).expect("a board of the sheet");
        let told = explain::trial(&bytes, &board, &trial, &names).unwrap();
        let departs = comparison != Comparison::Conforms;
        match trial.failure {
            Some(failure) => {
                let test = &sheet.tests[failure.test];
                steps_are_told(&bytes, &board, &test[..=failure.position]);
                assert!(told.ends_with("departs\n"), "{told}");
            }
            None => {
                passing += 1;
                assert_eq!(told.contains("\nIt conforms: "), !departs, "{told}");
                assert_eq!(told.contains("\nYet it departs"), departs, "{told}");
            }
        }
    }
    assert!(
        conforming > 1_000 && passing > 1_000,
        "{conforming} {passing}"
    );
}

/// The states told are those that defined sequences lead to, the specified one first.
fn together(bytes: &[u8], board: &[u8], told: &str) {
    let machine = machine(bytes);
    let taken = machine.with(board).expect("a board");
    let mut met = vec![(0, taken.wake().to.next)];
    let mut next = 0;
    while let Some(&(state, other)) = met.get(next) {
        for press in 0..machine.presses {
            if let Some(to) = machine.rules.get(&(state, press)) {
                let step = taken.step(other, press).to;
                assert_eq!(step.sound, to.sound, "{told}");
                if !met.contains(&(to.next, step.next)) {
                    met.push((to.next, step.next));
                }
            }
        }
        next += 1;
    }
    met.sort();
    let lines = told
        .lines()
        .skip_while(|line| cells(line) != ["specified", "board"]);
    let pairs = lines.skip(1).flat_map(|line| {
        let cells = cells(line);
        let (state, others) = (cells[0].parse().unwrap(), cells[1].to_string());
        let others: Vec<u8> = others
            .split(", ")
            .map(|other| other.parse().unwrap())
            .collect();
        others.into_iter().map(move |other| (state, other))
    });
    assert_eq!(pairs.collect::<Vec<_>>(), met, "{told}");
}

/// Where the specification ends, nothing is specified, and nothing departs.
#[test]
fn undefined_presses() {
    let steps = explain::sequence(&listed::p4(), &[3, 0], &[1, 0, 0], &Names::default()).unwrap();
    let lines: Vec<Vec<&str>> = steps.lines().skip(1).map(cells).collect();
    assert_eq!(
        lines,
        [
            vec!["0", "1", "no RULE", "0 -> 1, sound 1", "open pair 0"],
            vec!["1", "0", "no RULE", "1 -> 1, sound 0"],
            vec!["2", "0", "no RULE", "1 -> 1, sound 0"],
        ]
    );
}

#[test]
fn refused_boards_are_not_explained() {
    let (p4, names) = (listed::p4(), Names::default());
    for (board, number) in [(&[4, 0][..], 14), (&[0], 13), (&[0, 0, 0], 13)] {
        let refusals = [
            explain::board(&p4, board, &names),
            explain::sequence(&p4, board, &[0], &names),
            explain::comparison(&p4, board, &Comparison::Conforms, &names),
        ];
        for refusal in refusals {
            assert_eq!(refusal.unwrap_err().number, number);
        }
    }
    let refusal = explain::sequence(&p4, &[0, 0], &[2], &names).unwrap_err();
    assert_eq!(refusal.number, 15);
}

#[test]
fn names_are_told() {
    let list = |words: &str| words.split(' ').map(str::to_string).collect();
    let names = Names {
        states: list("locked open"),
        presses: list("knock handle"),
        sounds: list("click bolt"),
    };
    let told = explain::board(&listed::p1(), &[1], &names).unwrap();
    let expected =
        "open pair 0, state open, press handle: choice 1, a FAULT: sound bolt, next state open; \
                    the RULE: sound bolt, next state locked\n";
    assert_eq!(told, expected);
    let steps = explain::sequence(&listed::p1(), &[1], &[0, 1, 0], &names).unwrap();
    let lines: Vec<Vec<&str>> = steps.lines().map(cells).collect();
    let last = [
        "2",
        "knock",
        "locked -> open, sound bolt",
        "open -> open, sound click",
        "departs",
    ];
    assert_eq!(lines[3], last);
}

/// The choices of P9's open pairs, as 01 numbers them.
#[test]
fn choices_of_a_listed_sheet() {
    let machine = machine(&listed::p9());
    let pairs = machine.open_pairs();
    let sites: Vec<Site> = pairs.iter().map(|pair| pair.site).collect();
    assert_eq!(sites, [(1, 1), (2, 0), (2, 1), (3, 0)].map(Site::Pair));
    let moves = |i: usize| -> Vec<(Origin, u8, u8)> {
        let choices = pairs[i].choices.iter();
        choices.map(|c| (c.origin, c.to.sound, c.to.next)).collect()
    };
    assert_eq!(moves(3), [(Origin::Rule, 1, 0), (Origin::Fault, 1, 1)]);
    assert_eq!(moves(0)[5], (Origin::Unspecified, 1, 1));
}

#[test]
fn only_accepted_sheets_are_taken_apart() {
    let mut random = Random::new(0x5EED_0026);
    for _ in 0..5_000 {
        let bytes = generator::any_bytes(&mut random);
        let taken = Machine::of(&bytes).map_err(|refusal| (refusal.number, refusal.place));
        let expected = read(&bytes).map_err(|refusal| (refusal.number, refusal.place));
        assert_eq!(taken.err(), expected.err());
    }
}
