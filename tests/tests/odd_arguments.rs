//! No public function panics, whatever it is given: bytes that are no sheet, boards of other sheets, numbers out of
//! range, machines and pictures that no sheet has.

use ranthelo::asked::{why, Asked};
use ranthelo::commands::{commands, Command};
use ranthelo::draw::{self, Line, Picture, Transition, Waking};
use ranthelo::machine::{Machine, Move};
use ranthelo::records::{self, Record};
use ranthelo::score::{self, Walked};
use ranthelo::text::{self, Text};
use ranthelo::{
    add_test, check_record, compare, explain, explain_record, faults, first_failed, generate,
    import, judge, list, make, meaning, merge, read, renumber, run, take, test_part, test_span,
    tray, write, Comparison, Failure, Named, Names, Place, Refusal, Station, Tables, Trial, Used,
    Verdict, Walk,
};
use ranthelo_tests::generator::{self, Random, SMALL};

/// A number of any size, most often a small one.
fn number(random: &mut Random) -> usize {
    match random.below(8) {
        0 => usize::MAX - random.below(3),
        1 => random.below(1 << 20),
        _ => random.below(24),
    }
}

fn byte(random: &mut Random) -> u8 {
    match random.chance(10) {
        true => random.below(256) as u8,
        false => random.below(6) as u8,
    }
}

fn bytes(random: &mut Random, most: usize) -> Vec<u8> {
    (0..random.below(most + 1)).map(|_| byte(random)).collect()
}

/// The bytes of a sheet, or of none.
fn sheet(random: &mut Random) -> Vec<u8> {
    let whole = generator::sheet(random, &SMALL).encode();
    match random.below(4) {
        0 => generator::damaged(random, &whole),
        1 => generator::noise(random),
        _ => whole,
    }
}

fn refusal(random: &mut Random, sheet: &[u8]) -> Refusal {
    let place = match random.chance(50) {
        true => random.below(sheet.len() + 2),
        false => number(random),
    };
    let number = random.below(27);
    read(sheet)
        .err()
        .filter(|_| random.chance(30))
        .unwrap_or(Refusal { number, place })
}

/// Names of any number, with letters that mean something in a text, in DOT and in SVG.
fn names(random: &mut Random) -> Names {
    let words = [
        "", "a", "a b", "#", "0", "RULE", "\"", "\\", "<&>", "\n", "\u{e9}",
    ];
    let mut list = || -> Vec<String> {
        let most = random.pick(&[0, 3, 17, 300]);
        (0..random.below(most + 1))
            .map(|_| random.pick(&words).to_string())
            .collect()
    };
    let (states, presses, sounds) = (list(), list(), list());
    Names {
        states,
        presses,
        sounds,
    }
}

fn used(random: &mut Random) -> Used {
    Used {
        number: number(random),
        set: number(random) as u32,
    }
}

#[test]
fn operations() {
    let mut random = Random::new(0x5EED_0D01);
    let random = &mut random;
    for _ in 0..3_000 {
        let (one, other) = (sheet(random), sheet(random));
        let (board, presses) = (bytes(random, 8), bytes(random, 12));
        let (n, record) = (number(random), bytes(random, 20));
        let _ = (
            read(&one),
            test_span(&one, n),
            test_part(&one, n),
            renumber(&one),
        );
        let _ = (
            run(&one, &board, &presses),
            first_failed(&one, &board),
            compare(&one, &board),
        );
        let _ = (judge(&one), add_test(&one, &presses), merge(&one, &other));
        let _ = make(&one).map(|made| read(&made.sheet));
        let _ = take(&one, &random_place(random));
        let boards = random.pick(&[0, 1, 2, n, usize::MAX / 2, usize::MAX]);
        let choices = if random.chance(50) {
            vec![]
        } else {
            board.clone()
        };
        let _ = tray(&one, boards, &choices);
        let _ = (check_record(&one, &record), explain_record(&one, &record));
        let (lengths, small) = ([n as u16, 1], [byte(random), byte(random), byte(random)]);
        let tables = Tables {
            size: small,
            quiet: n % 2 == 0,
            rules: &presses,
            faults: &board,
            starts: &board,
            lengths: &lengths,
            presses: &record,
        };
        let _ = (write(tables), generate(n as u32, small), meaning(n));
        if let Ok(walk) = Walk::from(&one, random_place(random)) {
            let mut walk = walk;
            let _ = (walk.next(), walk.add_test(&presses), walk.next());
        }
        let state = [
            number(random),
            number(random),
            number(random),
            number(random),
        ];
        for station in [Station::begin(&one), Station::resume(&one, state)] {
            let Ok(mut station) = station else { continue };
            let _ = (
                station.next_step(),
                station.sound(byte(random)),
                station.change(&other),
                station.next_step(),
            );
        }
    }
}

fn random_place(random: &mut Random) -> Place {
    match random.below(3) {
        0 => Place::Start,
        1 => Place::End,
        _ => Place::Board(bytes(random, 40)),
    }
}

#[test]
fn words() {
    let mut random = Random::new(0x5EED_0D02);
    let random = &mut random;
    for _ in 0..3_000 {
        let (sheet, other, names) = (sheet(random), sheet(random), names(random));
        let (board, presses, n) = (bytes(random, 6), bytes(random, 10), number(random));
        let refusal = refusal(random, &sheet);
        let _ = (
            explain::reason(&sheet, refusal),
            explain::reason_named(&sheet, refusal, &names),
        );
        let _ = (
            list::list(&sheet),
            list::named(&sheet, &names),
            list::marked(&sheet, refusal),
        );
        let _ = (
            explain::board(&sheet, &board, &names),
            explain::sequence(&sheet, &board, &presses, &names),
        );
        let failure = Some(Failure {
            test: n,
            position: number(random),
        })
        .filter(|_| n % 2 == 0);
        let trial = Trial {
            failure,
            used: used(random),
        };
        let _ = (
            explain::trial(&sheet, &board, &trial, &names),
            trial.to_string(),
            trial.used.pairs().count(),
        );
        let verdict = Verdict::Survivor {
            board: board.clone(),
            sequence: presses.clone(),
        };
        let comparison = Comparison::Departs {
            sequence: presses.clone(),
        };
        let _ = explain::comparison(&sheet, &board, &Comparison::Conforms, &names);
        let _ = (
            explain::verdict(&sheet, &verdict, &names),
            explain::comparison(&sheet, &board, &comparison, &names),
        );
        let _ = (
            verdict.named(&names),
            comparison.named(&names),
            refusal.to_string(),
            refusal.kind(),
        );
        for asked in [
            Asked::Sheet,
            Asked::Tables,
            Asked::Board(&board),
            Asked::Run {
                board: &board,
                presses: &presses,
            },
            Asked::Test(n),
            Asked::Made,
            Asked::NewTest(&presses),
            Asked::Tray {
                boards: n,
                choices: &board,
            },
            Asked::Record(&presses),
            Asked::Second(&other),
            Asked::Station,
            Asked::Changed {
                before: &other,
                begun: n,
                over: n % 3 == 0,
            },
            Asked::Sound {
                sound: byte(random),
                due: n % 2 == 0,
            },
        ] {
            let _ = why(&sheet, &asked, refusal, &names);
        }
        for kind in Named::ALL {
            let _ = (
                names.called(kind, byte(random)),
                names.value(kind, "300"),
                names.number(kind, "a"),
            );
        }
    }
}

#[test]
fn texts() {
    let mut random = Random::new(0x5EED_0D03);
    let random = &mut random;
    for _ in 0..3_000 {
        let (sheet, more, names, n) = (
            sheet(random),
            bytes(random, 20),
            names(random),
            number(random),
        );
        let spelled = text::disassemble_named(&sheet, &names);
        let source = match random.below(3) {
            0 => generator::damaged(random, spelled.as_bytes()),
            1 => more.clone(),
            _ => spelled.into_bytes(),
        };
        let _ = (
            text::is_text(&source),
            text::bytes_of(source.clone()),
            text::assemble(&source),
        );
        let _ = (
            text::line_at(&source, n),
            text::sorted(&source),
            text::disassemble(&source),
            text::lines_of(&more, &names),
        );
        if let Ok(text) = Text::read(&source) {
            let _ = (
                text.joined(&more, &more, &sheet),
                text.joined(&source, &more, &sheet),
                text.line_at(n),
            );
            let _ = text.sorted().bytes();
        }
        for command in commands(&more).chain([Command {
            place: n,
            bytes: &[],
        }]) {
            let _ = (
                command.byte(),
                command.operands(),
                command.kind(),
                command.whole(),
                command.end(),
                text::words(command),
            );
        }
        if let Ok(record) = Record::read(&source, &names) {
            let _ = (record.place(n), record.presses_before(n));
        }
        let _ = (records::spelled(&source, &names), import::machine(&source));
    }
}

/// A machine of any numbers at all.
fn machine(random: &mut Random) -> Machine {
    let mut machine = Machine::of(&sheet(random)).unwrap_or_default();
    for _ in 0..random.below(4) {
        let (pair, to) = (
            (byte(random), byte(random)),
            Move {
                sound: byte(random),
                next: byte(random),
            },
        );
        match random.below(6) {
            0 => machine.states = random.below(9) as u8,
            1 => machine.presses = random.below(9) as u8,
            2 => machine.sounds = random.below(5) as u8,
            3 => machine.starts.push(byte(random)),
            4 => machine.faults.entry(pair).or_default().push(to),
            _ => drop(machine.rules.insert(pair, to)),
        }
    }
    machine
}

#[test]
fn machines() {
    let mut random = Random::new(0x5EED_0D04);
    let random = &mut random;
    for _ in 0..1_000 {
        let (machine, names) = (machine(random), names(random));
        let pairs = machine.open_pairs();
        let board: Vec<u8> = pairs
            .iter()
            .map(|pair| random.below(pair.choices.len().min(256)) as u8)
            .collect();
        for board in [&board[..], &bytes(random, 6)] {
            let Some(board) = machine.with(board) else {
                continue;
            };
            let _ = (
                board.wake(),
                board.step(byte(random), byte(random)),
                board.taken().count(),
            );
        }
        let _ = (
            machine.reached(&bytes(random, 5)),
            machine.choices((byte(random), byte(random))),
        );
        let _ = faults::rows(&machine, faults::Model::ALL);
        let walked = Walked {
            conforming: number(random) as u64,
            departing: number(random) as u64,
        };
        let (found, all) = walked.score(&machine);
        let _ = (
            found.to_string(),
            all.to_string(),
            walked.passing(),
            score::boards(&machine).less(number(random) as u64),
        );
        let picture = draw::machine(&machine, &names, random.chance(50));
        shown(&picture);
    }
}

fn shown(picture: &Picture) {
    let _ = (
        draw::dot(picture),
        draw::table(picture),
        draw::mealy(picture),
        draw::svg(picture),
    );
}

/// A picture of anything at all: arrows of every kind, between states that are there or not.
#[test]
fn pictures() {
    let mut random = Random::new(0x5EED_0D05);
    let random = &mut random;
    shown(&Picture::default());
    let lines = [Line::Rule, Line::Fault, Line::Unspecified, Line::Specified];
    for i in 0..300 {
        let states = random.below(7) as u8;
        let mut picture = Picture {
            title: "a title ".repeat(random.below(30)),
            names: names(random),
            states,
            presses: byte(random),
            ..Picture::default()
        };
        for _ in 0..random.below(4) {
            picture.wakings.push(Waking {
                state: byte(random),
                line: random.pick(&lines),
                marked: random.chance(50),
            });
        }
        // Now and then all arrows that there can be between three states.
        let transitions = if i % 20 == 0 { 150 } else { random.below(20) };
        for _ in 0..transitions {
            let to = Move {
                sound: byte(random),
                next: random.below(4) as u8,
            };
            picture.transitions.push(Transition {
                state: random.below(4) as u8,
                press: byte(random),
                to: Some(to).filter(|_| random.chance(90)),
                line: random.pick(&lines),
                positions: if random.chance(50) {
                    vec![number(random)]
                } else {
                    vec![]
                },
            });
        }
        shown(&picture);
    }
}
