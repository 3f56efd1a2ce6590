//! The program `judge`, named by the environment variable RANTHELO_JUDGE.

use ranthelo_tests::enumeration::{self, Survivor};
use ranthelo_tests::generator::{self, Random, Shape, SMALL};
use ranthelo_tests::listed::{self, spelled};
use ranthelo_tests::reference::{read, Refusal, Sheet};
use std::fs::File;
use std::io::Write;
use std::process::{Child, Command, Output, Stdio};
use std::thread::sleep;
use std::time::Duration;

fn program() -> Command {
    let path = std::env::var_os("RANTHELO_JUDGE").expect("RANTHELO_JUDGE names the program");
    let mut command = Command::new(path);
    command.stdout(Stdio::piped()).stderr(Stdio::piped());
    command
}

fn started() -> Child {
    let mut command = program();
    command.stdin(Stdio::piped());
    command.spawn().expect("the program starts")
}

/// The output on a sheet that comes in pieces, with a pause after each but the last.
fn output_of(pieces: &[&[u8]]) -> Output {
    let mut child = started();
    let mut input = child.stdin.take().expect("standard input is a pipe");
    for (i, piece) in pieces.iter().enumerate() {
        if i > 0 {
            sleep(Duration::from_millis(20));
        }
        // The program may stop reading a sheet that is too long.
        if input.write_all(piece).and_then(|_| input.flush()).is_err() {
            break;
        }
    }
    drop(input);
    child.wait_with_output().expect("the program ends")
}

fn prints(bytes: &[u8], expected: &str) {
    let output = output_of(&[bytes]);
    let printed = String::from_utf8_lossy(&output.stdout);
    assert_eq!(printed, expected, "{}", spelled(bytes));
    assert!(output.stderr.is_empty(), "{}", spelled(bytes));
}

fn fields(name: &str, numbers: &[u8]) -> String {
    let fields = numbers.iter().map(|number| format!(" {number}"));
    format!("{name}{}\n", fields.collect::<String>())
}

/// What 01 has the program print.
fn printed(verdict: Result<Option<Survivor>, Refusal>) -> String {
    match verdict {
        Ok(None) => "complete\n".to_string(),
        Ok(Some(Survivor { board, sequence })) => {
            let (board, press) = (fields("board", &board), fields("press", &sequence));
            format!("survivor\n{board}{press}")
        }
        Err(Refusal { number, place }) => format!("refused {number} at {place}\n"),
    }
}

#[test]
fn first_sheet_in_full() {
    prints(&listed::p1(), "survivor\nboard 1\npress 0 1 0\n");
}

#[test]
fn listed_sheets() {
    for (_, bytes, survivor) in listed::verdicts() {
        prints(&bytes, &printed(Ok(survivor)));
    }
    for ((_, bytes), (_, reading)) in listed::all().into_iter().zip(listed::readings()) {
        if let Err(refusal) = reading {
            prints(&bytes, &printed(Err(refusal)));
        }
    }
}

#[test]
fn limits() {
    prints(&listed::open_pairs(32), "complete\n");
    prints(&listed::tests(256), "complete\n");
    prints(&generator::of_length(16_384), "complete\n");
    prints(&generator::of_length(16_385), "refused 1 at 16384\n");
    prints(&[6; 16_385], "refused 1 at 16384\n");
    prints(&[6; 200_000], "refused 1 at 16384\n");
}

#[test]
fn empty_input() {
    prints(&[], "refused 2 at 0\n");
    let output = program().stdin(Stdio::null()).output().unwrap();
    assert_eq!(output.stdout, b"refused 2 at 0\n");
}

#[test]
fn numbers_of_two_figures() {
    let mut sheet = Sheet {
        states: 1,
        presses: 16,
        sounds: 2,
        ..Sheet::default()
    };
    for x in 0..16 {
        sheet.rules.insert((0, x), (0, 0));
    }
    sheet.faults.insert(((0, 12), (1, 0)));
    prints(&sheet.encode(), "survivor\nboard 1\npress 12\n");
}

/// The test leaves the choices with sound 9, of which the first is wrong.
#[test]
fn numbers_of_three_figures() {
    let mut sheet = generator::ring(1);
    sheet.rules.insert((3, 0), (9, 4));
    for to in (0..16).flat_map(|o| (0..16).map(move |t| (o, t))) {
        if to != (9, 4) {
            sheet.faults.insert(((3, 0), to));
        }
    }
    sheet.tests.push(vec![0; 4]);
    prints(&sheet.encode(), "survivor\nboard 145\npress 0 0 0 0 0\n");
}

#[test]
fn input_in_pieces() {
    let p9 = listed::p9();
    let (first, rest) = p9.split_at(7);
    let (second, third) = rest.split_at(30);
    let output = output_of(&[first, second, third]);
    assert_eq!(
        String::from_utf8_lossy(&output.stdout),
        "survivor\nboard 0 0 0 1\npress 1 0 1 0 0 1 0\n"
    );
    let whole = generator::of_length(16_384);
    let (first, second) = whole.split_at(10_000);
    assert_eq!(output_of(&[first, second]).stdout, b"complete\n");
    let output = output_of(&[&whole, &[6]]);
    assert_eq!(output.stdout, b"refused 1 at 16384\n");
}

/// Reading a directory fails: no verdict, and a word on standard error.
#[test]
fn input_that_cannot_be_read() {
    let directory = File::open(env!("CARGO_MANIFEST_DIR")).expect("the folder opens");
    let output = program().stdin(directory).output().unwrap();
    assert!(output.stdout.is_empty());
    assert!(!output.stderr.is_empty());
}

/// Arguments are not looked at: a word on standard error says so, and standard input is judged.
#[test]
fn arguments() {
    let p1 = concat!(env!("CARGO_MANIFEST_DIR"), "/../examples/P1.sheet");
    for arguments in [vec![p1], vec!["--help"], vec!["", ""]] {
        let mut command = program();
        command.args(arguments).stdin(File::open(p1).unwrap());
        let output = command.output().expect("the program ends");
        assert_eq!(output.stdout, b"survivor\nboard 1\npress 0 1 0\n");
        let told = String::from_utf8_lossy(&output.stderr);
        assert_eq!(told, "judge: takes no arguments and reads standard input\n");
    }
}

#[test]
fn random_sheets() {
    let shape = Shape {
        boards: 300,
        ..SMALL
    };
    let mut random = Random::new(0x5EED_000C);
    for _ in 0..400 {
        let mut bytes = generator::sheet(&mut random, &shape).encode();
        if random.chance(30) {
            bytes = generator::damaged(&mut random, &bytes);
            if read(&bytes).is_ok() {
                continue;
            }
        }
        let verdict = enumeration::judge(&bytes, 32, 256);
        prints(&bytes, &printed(verdict));
    }
}
