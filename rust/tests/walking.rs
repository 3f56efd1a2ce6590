//! `walk` and `add`: every board that passes, and a test more.

mod common;

use common::json::{Value, lines};
use common::{command, examples, file, gives, output, output_on, status, text};
use ranthelo::machine::Machine;
use ranthelo::{Comparison, Place, Walk, compare, first_failed};
use std::fs;
use std::io::{BufRead, BufReader};
use std::process::Stdio;

#[test]
fn walk() {
    let all = "board 0 0 conforms\nboard 0 1 departs 0 1 0\nboard 1 0 conforms\n";
    let listed = output(&["walk", "P4.txt"]);
    assert!(
        text(&listed.stdout).starts_with(all),
        "{}",
        text(&listed.stdout)
    );
    assert!(text(&listed.stdout).ends_with("\nend\n"));
    assert_eq!((status(&listed), listed.stderr.len()), (1, 0));
    gives(
        &["walk", "--most", "3", "P4.txt"],
        1,
        &format!("{all}more\n"),
        "",
    );
    gives(&["walk", "P2.txt"], 0, "board 0 conforms\nend\n", "");
    gives(
        &["walk", "--after", "0,1", "--most=1", "P4.txt"],
        0,
        "board 1 0 conforms\nmore\n",
        "",
    );
    gives(
        &["walk", "--departing", "P1.txt"],
        1,
        "board 1 departs 0 1 0\nend\n",
        "",
    );
    gives(&["walk", "--most", "0", "P6.txt"], 0, "more\n", "");
    gives(&["walk", "P6.txt"], 0, "board conforms\nend\n", "");
    gives(&["walk", "--quiet", "P1.txt"], 1, "", "");
}

#[test]
fn count() {
    gives(
        &["walk", "--count", "P1.txt"],
        1,
        "end\npassing 2\nconforming 1\ndeparting 1\nscore 0/1\n",
        "",
    );
    gives(
        &["walk", "--count", "P2.txt"],
        0,
        "end\npassing 1\nconforming 1\ndeparting 0\nscore 1/1\n",
        "",
    );
    gives(
        &["walk", "--count", "P6.txt"],
        0,
        "end\npassing 1\nconforming 1\ndeparting 0\nscore 0/0\n",
        "",
    );
    // Of a part of the walk there is no score.
    gives(
        &["walk", "--count", "--most", "1", "P1.txt"],
        0,
        "more\npassing 1\nconforming 1\ndeparting 0\n",
        "",
    );
    gives(
        &["walk", "--count", "--after", "0", "P1.txt"],
        1,
        "end\npassing 1\nconforming 0\ndeparting 1\n",
        "",
    );
}

#[test]
fn json() {
    let walked = output(&["walk", "--json", "--count", "P1.txt"]);
    let all = lines(&walked.stdout);
    assert_eq!(all[0].text("answer"), "end");
    assert_eq!((all[1].number("passing"), all[1].text("score")), (2, "0/1"));
    let walked = lines(&output(&["walk", "--json", "P1.txt"]).stdout);
    assert_eq!(walked.len(), 3);
    assert_eq!(
        (walked[1].bytes("board"), walked[1].text("answer")),
        (vec![1], "departs")
    );
    assert_eq!(walked[1].bytes("press"), [0, 1, 0]);
    assert_eq!(
        walked[2].get("answer"),
        Some(&Value::Text("end".to_string()))
    );
}

#[test]
fn refusals() {
    gives(
        &["walk", "--after", "2", "P1.txt"],
        2,
        "",
        "ranthelo: P1.txt: refused 14 at 0: choice 2 at open pair 0 (state 1, press 1), which has 2\n",
    );
    gives(
        &["walk", "--after", "", "P1.txt"],
        2,
        "",
        "ranthelo: P1.txt: refused 13 at 0: 0 choices, and the sheet has 1 open pair\n",
    );
    gives(
        &["walk", "empty.sheet"],
        2,
        "",
        "ranthelo: empty.sheet: refused 2 at 0: the sheet ends without END\n",
    );
    gives(
        &["walk", "no.sheet"],
        3,
        "",
        "ranthelo: no.sheet: No such file or directory (os error 2)\n",
    );
}

/// A board comes as it is found: the walk over a large sheet is read while it goes on, and ends when nobody reads.
#[test]
fn boards_come_at_once() {
    let mut command = command(&["walk", "32-open-pairs.txt"]);
    command.stdout(Stdio::piped()).stderr(Stdio::piped());
    let mut child = command.spawn().expect("the command starts");
    let mut output = BufReader::new(child.stdout.take().expect("a pipe"));
    let mut line = String::new();
    for _ in 0..3 {
        line.clear();
        output.read_line(&mut line).expect("a line");
        assert!(line.starts_with("board 0 "), "{line}");
    }
    drop(output);
    let ended = child.wait_with_output().expect("it ends");
    assert_eq!((ended.status.code(), ended.stderr.len()), (Some(3), 0));
}

/// All boards of a sheet.
fn boards(machine: &Machine) -> Vec<Vec<u8>> {
    machine
        .open_pairs()
        .iter()
        .fold(vec![vec![]], |boards, pair| {
            let longer = |board: &Vec<u8>| {
                let board = board.clone();
                (0..pair.choices.len())
                    .map(move |choice| [&board[..], &[choice as u8]].concat())
                    .collect::<Vec<_>>()
            };
            boards.iter().flat_map(longer).collect()
        })
}

/// The iterator: each passing board once; lengthened and resumed.
#[test]
fn walks_in_rust() {
    for name in ["P1", "P4", "P9", "P1-start", "P4-quiet"] {
        let sheet = fs::read(examples().join(format!("{name}.sheet"))).unwrap();
        let machine = Machine::of(&sheet).unwrap();
        let passes =
            |sheet: &[u8], board: &[u8]| first_failed(sheet, board).unwrap().failure.is_none();
        let expected: Vec<Vec<u8>> = boards(&machine)
            .into_iter()
            .filter(|board| passes(&sheet, board))
            .collect();
        let walked: Vec<Vec<u8>> = Walk::new(&sheet).unwrap().map(|one| one.board).collect();
        assert_eq!(walked, expected, "{name}");
        for one in Walk::new(&sheet).unwrap() {
            assert_eq!(
                compare(&sheet, &one.board).unwrap(),
                one.comparison,
                "{name}"
            );
        }
        let departing = Walk::new(&sheet)
            .unwrap()
            .find(|one| one.comparison != Comparison::Conforms);
        let Some(Comparison::Departs { sequence }) = departing.map(|one| one.comparison) else {
            continue;
        };
        for taken in 0..=expected.len() {
            let mut walk = Walk::new(&sheet).unwrap();
            assert_eq!(walk.by_ref().take(taken).count(), taken);
            let mut resumed = Walk::from(&sheet, walk.place().clone()).unwrap();
            resumed.add_test(&sequence).unwrap();
            walk.add_test(&sequence).unwrap();
            assert_eq!(resumed, walk);
            let rest: Vec<Vec<u8>> = walk.by_ref().map(|one| one.board).collect();
            let later = expected[taken..]
                .iter()
                .filter(|board| passes(walk.sheet(), board));
            assert_eq!(rest, later.cloned().collect::<Vec<_>>(), "{name}");
            assert_eq!(walk.next(), None);
            assert_eq!(walk.place(), &Place::End);
        }
        assert_eq!(
            Walk::from(&sheet, Place::Board(vec![255; 40]))
                .unwrap_err()
                .number,
            13
        );
    }
}

#[test]
fn add() {
    let p1 = fs::read_to_string(examples().join("P1.txt")).unwrap();
    gives(
        &["add", "--text", "--test", "0,1,0", "P1.txt"],
        0,
        &format!("{p1}TEST 0 1 0\n"),
        "",
    );
    let longer = output(&["add", "--test", "0,1,0", "P1.sheet"]);
    assert_eq!(output_on(&["judge"], &longer.stdout).stdout, b"complete\n");
    let named = file(
        "add-named.txt",
        b"SIZE 1 1 1 # small\nPRESSES knock\nRULE 0 0 0 0",
    );
    let expected = "SIZE 1 1 1 # small\nPRESSES knock\nRULE 0 0 0 0\nTEST knock knock\n";
    gives(
        &["add", "--text", "--test", "knock 0", &named],
        0,
        expected,
        "",
    );
    let json = lines(&output(&["add", "--json", "--test", "0", "P1.txt"]).stdout);
    assert_eq!(json[0].text("answer"), "written");
    for (arguments, told) in [
        (
            ["--test", "0,2", "P1.txt"],
            "P1.txt: refused 5 at 1: press 2 is not below 2",
        ),
        (
            ["--test", "0,1,1,1", "P4.txt"],
            "P4.txt: refused 9 at 2: the test has reached state 0, which has no RULE for press 1",
        ),
        (
            ["--test", "0", "256-tests.txt"],
            "256-tests.txt: refused 8 at 0: 256 tests stand before it",
        ),
        (
            ["--test", "0", "empty.txt"],
            "empty.txt: refused 2 at 0: the sheet ends without END",
        ),
    ] {
        gives(
            &[&["add"], &arguments[..]].concat(),
            2,
            "",
            &format!("ranthelo: {told}\n"),
        );
    }
    let long = vec!["0"; 257].join(",");
    let told = "ranthelo: P6-rule.txt: refused 8 at 256: 256 presses stand before it\n";
    let rule = file("P6-rule.txt", b"SIZE 1 1 1\nRULE 0 0 0 0\n");
    gives(
        &["add", "--test", &long, &rule],
        2,
        "",
        &told.replace("P6-rule.txt", &rule),
    );
    gives(
        &["add", "P1.txt"],
        3,
        "",
        "ranthelo: add needs --test; see ranthelo help add\n",
    );
}
