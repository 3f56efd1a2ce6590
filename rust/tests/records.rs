//! `log`: a lock's own record, as text and as bytes.

mod common;

use common::json::{Value, lines};
use common::{file, gives, output, output_on, status, text};

/// P1 sounds 1 1 on 0 1, then 1 on 0; its board 1 sounds 0 there.
#[test]
fn log() {
    let good = file("good.log", b"PULSE 0/1 1/1 0/1\nPULSE\nPULSE 1/0\n");
    gives(
        &["log", "P1.txt", &good],
        0,
        "as specified\ngiven by a board\n",
        "",
    );
    let faulty = file("faulty.log", b"# from the bench\nPULSE 0/1 1/1\nSEEN 0 0\n");
    gives(
        &["log", "P1.txt", &faulty],
        1,
        "differs 7\ngiven by a board\n",
        "",
    );
    let neither = file("neither.log", b"PULSE 0/0\n");
    gives(
        &["log", "P1.txt", &neither],
        1,
        "differs 1\ngiven by no board\n",
        "",
    );
    let empty = file("empty.log", b"# nothing\n");
    gives(
        &["log", "P1.txt", &empty],
        0,
        "as specified\ngiven by a board\n",
        "",
    );
    let bytes = [0x10, 0x11, 0, 1, 0x11, 1, 1, 0x11, 0, 0];
    let piped = output_on(&["log", "P1.txt"], &bytes);
    assert_eq!(
        (status(&piped), text(&piped.stdout)),
        (1, "differs 7\ngiven by a board\n".to_string())
    );
    gives(&["log", "--quiet", "P1.txt", &faulty], 1, "", "");
}

#[test]
fn explained() {
    let faulty = file(
        "explained.log",
        b"PULSE\n# from the bench\nPULSE 0/1 1/1\nSEEN 0 0\n",
    );
    let expected = "\
differs 8
given by a board

Pulse 1, position 2, line 4: press 0 gave sound 0; specified: sound 1.
The first board that gives every sound is board 1, which departs.
";
    gives(&["log", "--explain", "P1.txt", &faulty], 1, expected, "");
    let neither = file("explained-neither.log", b"PULSE 0/0\n");
    let expected = "\
differs 1
given by no board

Pulse 0, position 0, line 1: press 0 gave sound 0; specified: sound 1.
No board of the sheet gives every sound: the lock is none of them.
";
    gives(&["log", "--explain", "P1.txt", &neither], 1, expected, "");
    let json = lines(&output(&["log", "--json", "P1.txt", &faulty]).stdout);
    assert_eq!(
        (json[0].text("answer"), json[0].number("place")),
        ("differs", 8)
    );
    let place = ["pulse", "position", "line"].map(|name| json[0].number(name));
    assert_eq!(
        (place, json[0].get("given")),
        ([1, 2, 4], Some(&Value::Bool(true)))
    );
}

#[test]
fn names() {
    let sheet = "SIZE 1 1 2\nPRESSES knock\nSOUNDS click bolt\nRULE 0 knock click 0\nFAULT 0 knock bolt 0\n";
    let sheet = file("log-named.txt", sheet.as_bytes());
    let record = file("named.log", b"PULSE knock/click knock/bolt\n");
    let expected = "\
differs 4
given by no board

Pulse 0, position 1, line 1: press knock gave sound bolt; specified: sound click.
No board of the sheet gives every sound: the lock is none of them.
";
    gives(&["log", "--explain", &sheet, &record], 1, expected, "");
}

#[test]
fn refusals_and_mistakes() {
    for (record, told) in [
        (
            "PULSE 0/1 2/0",
            "refused 20 at 4 (line 1): press 2 is not below 2",
        ),
        ("PULSE\n0/1", "line 2: 0/1 is no command of a record"),
        (
            "PULSE 0/2",
            "refused 20 at 1 (line 1): sound 2 is not below 2",
        ),
        (
            "\nSEEN 0 1",
            "refused 20 at 0 (line 2): SEEN stands before any PULSE",
        ),
        (
            "PULSE\nHEX 11 00",
            "refused 20 at 1 (line 2): operands of SEEN are missing: 1 of 2 are there",
        ),
        (
            "PULSE\nHEX 12",
            "refused 20 at 1 (line 2): 12 is no command of a record",
        ),
        ("PULSE 0", "line 1: 0 is no press/sound"),
        (
            "SEEN 0",
            "line 1: SEEN takes 2 operands (press, sound), not 1",
        ),
        ("PULSE 0/300", "line 1: 300 is not 0 to 255"),
    ] {
        let output = output_on(&["log", "P1.txt", "-"], record.as_bytes());
        let expected = if told.starts_with("refused") { 2 } else { 3 };
        assert_eq!(
            text(&output.stderr),
            format!("ranthelo: standard input: {told}\n")
        );
        assert_eq!(
            (status(&output), output.stdout.len()),
            (expected, 0),
            "{record}"
        );
    }
    let told = "ranthelo: empty.sheet: refused 2 at 0: the sheet ends without END\n";
    gives(&["log", "empty.sheet", "P1.sheet"], 2, "", told);
    gives(
        &["log", "P1.txt", "no.log"],
        3,
        "",
        "ranthelo: no.log: No such file or directory (os error 2)\n",
    );
}
