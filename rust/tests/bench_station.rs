//! `station` and `lock`, alone and joined by two pipes.

mod common;

use common::json::{Value, parse};
use common::{command, examples, file, gives, output, output_on, status, text};
use ranthelo::machine::Machine;
use ranthelo::{Failure, first_failed, make};
use std::fs;
use std::io::{BufRead, BufReader, Write};
use std::path::Path;
use std::process::{Child, Stdio};

/// What the station answers to some lines.
fn driven(arguments: &[&str], lines: &str) -> (i32, String, String) {
    let output = output_on(&[&["station"], arguments].concat(), lines.as_bytes());
    (status(&output), text(&output.stdout), text(&output.stderr))
}

const UNFINISHED: &str = "ranthelo: standard input: it ended before the verdict\n";

#[test]
fn pass_and_failure() {
    // The list of P2 is 0 1 0, with sounds 1 1 1.
    let good = "next\nnext\nsound 1\nnext\nsound 1\nnext\nsound 1\nnext\nnext\n";
    let answers = "pulse\npress 0\ntaken\npress 1\ntaken\npress 0\ntaken\npass\npass\n";
    assert_eq!(
        driven(&["P2.txt"], good),
        (0, answers.to_string(), String::new())
    );
    let bad = "next\nnext\nsound 1\nnext\nnext\nsound 0\nnext\n";
    let answers = "pulse\npress 0\ntaken\npress 1\npress 1\nfails test 0 position 1\nfails test 0 position 1\n";
    assert_eq!(
        driven(&["P2.txt"], bad),
        (1, answers.to_string(), String::new())
    );
}

#[test]
fn refusals_and_mistakes() {
    let lines = "sound 0\nnext\nnext\nsound 2\nsound x\npress 0\nsheet P1.txt\nsheet P6.txt\nsheet no.txt\n\n\
                 sheet P2.sheet\n";
    let answers = "\
refused 24 at 0: no press is due
pulse
press 0
refused 24 at 0: sound 2 is not below 2
mistake: x is no number
mistake: a line is next, sound O or sheet FILE
refused 22 at 0: the list is not complete: board 1 passes it and departs on 0 1 0
refused 23 at 0: SIZE 2 2 2 and SIZE 1 1 1
mistake: no.txt: No such file or directory (os error 2)
taken
";
    assert_eq!(
        driven(&["P2.txt"], lines),
        (3, answers.to_string(), UNFINISHED.to_string())
    );
    gives(
        &["station", "P1.txt"],
        2,
        "",
        "ranthelo: P1.txt: refused 22 at 0: the list is not complete: board 1 passes it and departs on 0 1 0\n",
    );
    gives(
        &["station", "empty.sheet"],
        2,
        "",
        "ranthelo: empty.sheet: refused 2 at 0: the sheet ends without END\n",
    );
    gives(
        &["station", "no.txt"],
        3,
        "",
        "ranthelo: no.txt: No such file or directory (os error 2)\n",
    );
    gives(
        &["station"],
        3,
        "",
        "ranthelo: station takes SHEET and options, 0 given; see ranthelo help station\n",
    );
}

/// A changed sheet with another test where one has begun, and one after the verdict.
#[test]
fn changed_sheets() {
    let p2 = fs::read_to_string(examples().join("P2.txt")).unwrap();
    let other = file(
        "station-other.txt",
        p2.replace("TEST 0 1 0", "TEST 0 1 0 0").as_bytes(),
    );
    let longer = file("station-longer.txt", format!("{p2}TEST 1\n").as_bytes());
    let lines = format!("sheet {other}\nnext\nsheet {longer}\nsheet P2.txt\n");
    let answers = "taken\npulse\nrefused 23 at 0: 1 test begun, and test 0 is another\n";
    let driven_so = driven(&["P2.txt"], &lines);
    assert!(driven_so.1.starts_with(answers), "{}", driven_so.1);
    let lines = format!("next\nnext\nsheet {longer}\nnext\nsound 0\nsheet {longer}\n");
    let answers = "pulse\npress 0\ntaken\npress 0\nfails test 0 position 0\nrefused 23 at 0: the verdict is given\n";
    assert_eq!(
        driven(&["P2.txt"], &lines),
        (1, answers.to_string(), String::new())
    );
}

/// A station that was stopped goes on at the same press.
#[test]
fn kept_state() {
    let state = file("station.state", b"");
    fs::remove_file(&state).unwrap();
    let steps = [
        "next\n",
        "next\n",
        "next\nsound 1\n",
        "next\nsound 1\nnext\n",
        "sound 1\nnext\n",
    ];
    let answers = [
        "pulse\n",
        "press 0\n",
        "press 0\ntaken\n",
        "press 1\ntaken\npress 0\n",
        "taken\npass\n",
    ];
    for (i, (lines, expected)) in steps.iter().zip(answers).enumerate() {
        let (ended, told) = if i == 4 { (0, "") } else { (3, UNFINISHED) };
        let got = driven(&["--state", &state, "P2.txt"], lines);
        assert_eq!(
            got,
            (ended, expected.to_string(), told.to_string()),
            "{lines}"
        );
    }
    assert!(
        fs::read_to_string(&state)
            .unwrap()
            .starts_with("state 1 3 0 1\nSIZE 2 2 2\n")
    );
    fs::write(&state, "something else\n").unwrap();
    let told = format!("ranthelo: {state}: this is no state of a station\n");
    gives(&["station", "--state", &state, "P2.txt"], 3, "", &told);
}

#[test]
fn lock() {
    let answered = output_on(
        &["lock", "--board", "1", "P1.txt"],
        b"pulse\npress 0\ntaken\npress 1\npress 0\nhello\npulse\npress 0\n",
    );
    let expected = "next\nnext\nsound 1\nnext\nsound 1\nsound 0\n\
                    mistake: a line is pulse, press X, taken, pass or fails\nnext\nsound 1\n";
    assert_eq!(
        (status(&answered), text(&answered.stdout)),
        (0, expected.to_string())
    );
    gives(
        &["lock", "--board", "2", "P1.txt"],
        2,
        "",
        "ranthelo: P1.txt: refused 14 at 0: choice 2 at open pair 0 (state 1, press 1), which has 2\n",
    );
    gives(
        &["lock", "P1.txt"],
        3,
        "",
        "ranthelo: lock needs --board; see ranthelo help lock\n",
    );
    let pressed = output_on(&["lock", "--board", "1", "P1.txt"], b"press 2\n");
    assert_eq!(
        (status(&pressed), text(&pressed.stdout)),
        (2, "next\n".to_string())
    );
}

/// With `--json` the same in objects, with tests, positions and names.
#[test]
fn objects() {
    let named = fs::read_to_string(examples().join("P2.txt")).unwrap();
    let named = named.replace(
        "SIZE 2 2 2\n",
        "SIZE 2 2 2\nPRESSES knock handle\nSOUNDS click bolt\n",
    );
    let named = file("station-named.txt", named.as_bytes());
    let lines = "next\nnext\nsound 2\nsound bolt\nknock\nnext\nsound click\nnext\n";
    let (ended, told, _) = driven(&["--json", &named], lines);
    let told: Vec<Value> = told.lines().map(parse).collect();
    let answers: Vec<&str> = told.iter().map(|one| one.text("answer")).collect();
    let expected = [
        "pulse", "press", "refused", "taken", "mistake", "press", "fails", "fails",
    ];
    assert_eq!((ended, &answers[..]), (1, &expected[..]));
    assert_eq!(told[0].number("test"), 0);
    assert_eq!(
        (
            told[1].number("press"),
            told[1].number("position"),
            told[1].text("name")
        ),
        (0, 0, "knock")
    );
    assert_eq!(
        (told[2].number("number"), told[2].text("why")),
        (24, "sound 2 is not below 2")
    );
    assert_eq!(told[4].text("why"), "a line is next, sound O or sheet FILE");
    assert_eq!(
        (
            told[5].number("press"),
            told[5].number("position"),
            told[5].text("name")
        ),
        (1, 1, "handle")
    );
    assert_eq!((told[6].number("test"), told[6].number("position")), (0, 1));
    let lock = output_on(
        &["lock", "--json", "--board", "1", &named],
        b"pulse\npress handle\nsay\npass\n",
    );
    let told: Vec<Value> = text(&lock.stdout).lines().map(parse).collect();
    let answers: Vec<&str> = told.iter().map(|one| one.text("answer")).collect();
    assert_eq!(
        (status(&lock), &answers[..]),
        (0, &["next", "next", "sound", "mistake"][..])
    );
    assert_eq!(
        (told[2].number("sound"), told[2].text("name")),
        (0, "click")
    );
}

fn piped(arguments: &[&str]) -> Child {
    let mut command = command(arguments);
    command
        .stdin(Stdio::piped())
        .stdout(Stdio::piped())
        .stderr(Stdio::piped());
    command.spawn().expect("the command starts")
}

/// Hands each line on to the other side; gives the last one.
fn hand_on(from: &mut Child, to: &mut Child) -> impl FnMut() -> Option<String> + use<> {
    let mut lines = BufReader::new(from.stdout.take().expect("a pipe")).lines();
    let mut other = to.stdin.take().expect("a pipe");
    move || {
        let line = lines.next()?.expect("a line");
        // The other side may have ended.
        let _ = writeln!(other, "{line}");
        Some(line)
    }
}

/// A station joined to a lock: the statuses of both, and what the station said last.
fn joined(sheet: &str, board: &[u8]) -> (Option<i32>, Option<i32>, String) {
    let board: Vec<String> = board.iter().map(u8::to_string).collect();
    let mut station = piped(&["station", sheet]);
    let mut lock = piped(&["lock", "--board", &board.join(","), sheet]);
    let mut asked = hand_on(&mut lock, &mut station);
    let mut answered = hand_on(&mut station, &mut lock);
    let mut last = String::new();
    while asked().is_some() {
        match answered() {
            Some(line) => last = line,
            None => break,
        }
    }
    drop((asked, answered));
    let ended = |mut child: Child| child.wait().expect("it ends").code();
    (ended(station), ended(lock), last)
}

/// All boards of a machine.
fn boards(machine: &Machine) -> Vec<Vec<u8>> {
    let mut boards = vec![vec![]];
    for pair in machine.open_pairs() {
        let choices = pair.choices.len() as u8;
        boards = boards
            .iter()
            .flat_map(|board: &Vec<u8>| {
                (0..choices).map(move |choice| [&board[..], &[choice]].concat())
            })
            .collect();
    }
    boards
}

/// Every board of the course's sheets, their lists made complete: the verdict is what first-failed tells.
#[test]
fn every_board_of_the_course() {
    let mut joins = 0;
    for entry in fs::read_dir(examples().join("course")).unwrap() {
        let path = entry.unwrap().path();
        if path
            .extension()
            .is_none_or(|extension| extension != "sheet")
        {
            continue;
        }
        let made = make(&fs::read(&path).unwrap()).expect("room").sheet;
        let stem = Path::new(path.file_name().unwrap()).display().to_string();
        let name = file(&format!("station-{stem}"), &made);
        for board in boards(&Machine::of(&made).unwrap()) {
            let expected = match first_failed(&made, &board).unwrap().failure {
                None => (Some(0), Some(0), "pass".to_string()),
                Some(Failure { test, position }) => (
                    Some(1),
                    Some(1),
                    format!("fails test {test} position {position}"),
                ),
            };
            assert_eq!(joined(&name, &board), expected, "{stem} {board:?}");
            joins += 1;
        }
    }
    assert!(joins > 40, "{joins}");
}

/// The same by the shell alone, as the help says.
#[test]
fn two_pipes() {
    let folder = Path::new(env!("CARGO_TARGET_TMPDIR")).join("two-pipes");
    let _ = fs::remove_dir_all(&folder);
    fs::create_dir_all(&folder).unwrap();
    fs::copy(examples().join("P2.txt"), folder.join("P2.txt")).unwrap();
    let program = env!("CARGO_BIN_EXE_ranthelo");
    for (board, expected) in [("0", 0), ("1", 1)] {
        let line = format!(
            "rm -f back; mkfifo back; {program} lock --board {board} P2.txt < back | {program} station P2.txt > back"
        );
        let mut shell = std::process::Command::new("sh");
        let ended = shell
            .args(["-c", &line])
            .current_dir(&folder)
            .status()
            .expect("the shell starts");
        assert_eq!(ended.code(), Some(expected));
    }
    let help = text(&output(&["help", "lock"]).stdout);
    assert!(help.contains("two pipes"), "{help}");
}
