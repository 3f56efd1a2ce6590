//! `merge`, `renumber`, `same` and `tray`.

mod common;

use common::json::{Value, lines};
use common::{examples, file, gives, output, output_on, status, text};
use std::fs;

const PLASTICS: &str = "\
# plastics
SIZE 2 1 3
RULE 0 0 0 1
RULE 1 0 1 0
# what may break
FAULT 0 0 0 0
FAULT 1 0 2 0   # rare
# the list
TEST 0
";
const ELECTRONICS: &str = "SIZE 2 1 3\nRULE 0 0 0 1\nRULE 1 0 1 0\nFAULT 0 0 2 1\nFAULT 1 0 2 0\nSTART 1\nTEST 0 0\n\
                           TEST\n";

#[test]
fn merge() {
    let (one, two) = (
        file("plastics.txt", PLASTICS.as_bytes()),
        file("electronics.txt", ELECTRONICS.as_bytes()),
    );
    let merged = PLASTICS
        .replace("FAULT 0 0 0 0\n", "FAULT 0 0 0 0\nFAULT 0 0 2 1\n")
        .replace("# rare\n", "# rare\nSTART 1\n")
        + "TEST 0 0\nTEST\n";
    gives(&["merge", "--text", &one, &two], 0, &merged, "");
    let bytes = output(&["merge", &one, &two]).stdout;
    assert_eq!(ranthelo::text::assemble(merged.as_bytes()).unwrap(), bytes);
    let json = lines(&output(&["merge", "--json", &one, &two]).stdout);
    assert_eq!(
        (json[0].text("answer"), json[0].bytes("sheet")),
        ("merged", bytes)
    );
    let told = format!("ranthelo: {one}: refused 21 at 0: SIZE 2 1 3 and SIZE 2 2 2\n");
    gives(&["merge", &one, "P1.txt"], 2, "", &told);
    let other = file(
        "other-rules.txt",
        ELECTRONICS
            .replace("RULE 1 0 1 0", "RULE 1 0 0 0")
            .as_bytes(),
    );
    let told = format!(
        "ranthelo: {one}: refused 21 at 0: the RULEs differ at state 1, press 0: sound 1, next state 0 and sound 0, \
         next state 0\n"
    );
    gives(&["merge", &one, &other], 2, "", &told);
    gives(
        &["merge", &one, "empty.sheet"],
        2,
        "",
        "ranthelo: empty.sheet: refused 2 at 0: the sheet ends without END\n",
    );
    gives(
        &["merge", "unreachable-state.sheet", "empty.sheet"],
        2,
        "",
        "ranthelo: unreachable-state.sheet: refused 11 at 4: state 1 can't be reached by RULEs\n",
    );
    let told = "ranthelo: 256-tests.txt: refused 8 at 0: 512 tests, over 256\n";
    gives(&["merge", "256-tests.txt", "256-tests.txt"], 2, "", told);
    gives(
        &["merge", &one],
        3,
        "",
        "ranthelo: merge takes FIRST SECOND and options, 1 given; see ranthelo help merge\n",
    );
}

const RING: &str = "SIZE 3 1 2\nSTATES a b c\nRULE a 0 0 c\nRULE b 0 1 a\nRULE c 0 0 b\nFAULT c 0 1 b\nSTART b\n\
                    TEST 0 0 0\n";
const RENUMBERED: &str = "SIZE 3 1 2\nSTATES a c b\nRULE a 0 0 c\nRULE c 0 0 b\nRULE b 0 1 a\nFAULT c 0 1 b\nSTART b\n\
                          TEST 0 0 0\n";

#[test]
fn renumber() {
    let ring = file("ring.txt", RING.as_bytes());
    gives(&["renumber", "--text", &ring], 0, RENUMBERED, "");
    let bytes = output(&["renumber", &ring]).stdout;
    assert_eq!(
        bytes,
        ranthelo::text::assemble(RENUMBERED.as_bytes()).unwrap()
    );
    assert_eq!(output_on(&["renumber"], &bytes).stdout, bytes);
    let told = "ranthelo: empty.sheet: refused 2 at 0: the sheet ends without END\n";
    gives(&["renumber", "empty.sheet"], 2, "", told);
}

#[test]
fn same() {
    let (one, two) = (
        file("same-1.txt", RING.as_bytes()),
        file("same-2.txt", RENUMBERED.as_bytes()),
    );
    gives(&["same", &one, &two], 0, "same\n", "");
    gives(&["same", &one, "P1.txt"], 1, "different\n", "");
    gives(&["same", "--quiet", &one, "P1.txt"], 1, "", "");
    let json = lines(&output(&["same", "--json", &one, &two]).stdout);
    assert_eq!(
        (json[0].text("answer"), json[0].text("second")),
        ("same", two.as_str())
    );
    let told = "ranthelo: empty.sheet: refused 2 at 0: the sheet ends without END\n";
    gives(&["same", &one, "empty.sheet"], 2, "", told);
}

#[test]
fn tray() {
    let boards = file(
        "boards.txt",
        b"# boards\n0\n\n1 # faulty\nboard 0 conforms\nboard 1 departs 0 1 0\nend\n",
    );
    let tried = "board 0 passes\nboard 1 fails 0\nboard 0 passes\nboard 1 fails 0\n";
    gives(&["tray", "P2.txt", &boards], 1, tried, "");
    let walked = output(&["walk", "P4.txt"]).stdout;
    let tried = output_on(&["tray", "P4.txt"], &walked);
    assert_eq!(status(&tried), 0);
    assert!(
        text(&tried.stdout)
            .lines()
            .all(|line| line.ends_with(" passes"))
    );
    assert_eq!(
        text(&tried.stdout).lines().count() + 1,
        text(&walked).lines().count()
    );
    let json = lines(&output(&["tray", "--json", "P2.txt", &boards]).stdout);
    let list = json[0].list("boards");
    assert_eq!(
        (list.len(), list[1].text("answer"), list[1].number("test")),
        (4, "fails", 0)
    );
    assert_eq!(
        list[0].get("answer"),
        Some(&Value::Text("passes".to_string()))
    );
    for (lines, expected, told) in [
        (
            "0\n2\n",
            2,
            "P2.txt: refused 14 at 1: board 1: choice 2 at open pair 0 (state 1, press 1), which has 2",
        ),
        (
            "0\n0 1\n",
            2,
            "P2.txt: refused 13 at 0: 2 choices, and the sheet has 1 open pair",
        ),
        (
            "0\nx\n",
            3,
            "standard input: line 2: x is no choice, 0 to 255",
        ),
    ] {
        let output = output_on(&["tray", "P2.txt", "-"], lines.as_bytes());
        assert_eq!(
            (status(&output), text(&output.stderr)),
            (expected, format!("ranthelo: {told}\n"))
        );
        assert!(output.stdout.is_empty());
    }
    let empty = fs::read(examples().join("P6.txt")).unwrap();
    assert!(!empty.is_empty());
    let without = output_on(&["tray", "P6.txt", "-"], b"board\nboard conforms\n");
    assert_eq!(text(&without.stdout), "board passes\nboard passes\n");
    gives(
        &["tray", "P2.txt"],
        3,
        "",
        "ranthelo: tray takes SHEET BOARDS and options, 1 given; see ranthelo help tray\n",
    );
}
