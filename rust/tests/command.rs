//! The words of the command that take a sheet, one by one: what they print, refuse and write.

mod common;

use common::{command, examples, file, gives, output, output_on, status, text};
use std::fs::{self, File};

/// The words that take a sheet, with the options that they need.
const WORDS: [&[&str]; 14] = [
    &["judge"],
    &["make"],
    &["read"],
    &["run", "--board", "1", "--press", "0"],
    &["first-failed", "--board", "1"],
    &["compare", "--board", "1"],
    &["assemble"],
    &["write"],
    &["list"],
    &["draw"],
    &["faults", "--all"],
    &["walk"],
    &["add", "--test", "0"],
    &["renumber"],
];

fn with<'a>(word: &[&'a str], more: &[&'a str]) -> Vec<&'a str> {
    [word, more].concat()
}

#[test]
fn judge() {
    gives(
        &["judge", "P1.sheet"],
        1,
        "survivor\nboard 1\npress 0 1 0\n",
        "",
    );
    gives(&["judge", "P2.sheet"], 0, "complete\n", "");
    gives(
        &["judge", "33-open-pairs.sheet"],
        2,
        "refused 12 at 19\n",
        "ranthelo: 33-open-pairs.sheet: refused 12 at 19: 33 open pairs, over 32\n",
    );
}

#[test]
fn judge_explains_a_survivor() {
    let expected = "\
survivor
board 0 1
press 0 1 0

open pair 1, state 1, press 1: choice 1, a FAULT: sound 1, next state 1; the RULE: sound 1, next state 0
the other open pair: choice 0, sound 0, next state 0; no RULE

position   press   specified         given
0          0       0 -> 1, sound 1   0 -> 1, sound 1
1          1       1 -> 0, sound 1   1 -> 1, sound 1   open pair 1
2          0       0 -> 1, sound 1   1 -> 1, sound 0   departs
";
    gives(&["judge", "--explain", "P4.sheet"], 1, expected, "");
}

#[test]
fn judge_explains_completeness_and_refusals() {
    let output = output(&["judge", "P2.sheet", "--explain"]);
    assert_eq!(status(&output), 0);
    assert!(text(&output.stdout).starts_with("complete\n\nEvery departing board fails some test."));
    let nothing = common::output(&["judge", "--explain", "P6.sheet"]);
    let told = "complete\n\nThe sheet has no FAULT and no START, so no board departs: ";
    assert_eq!(status(&nothing), 0);
    assert!(text(&nothing.stdout).starts_with(told));
    gives(
        &["judge", "--explain", "17-states.sheet"],
        2,
        "refused 4 at 0\n\n>     0  01 11 01 01     SIZE 17 1 1\n         refused 4: states 17 is not 1 to 16\n",
        "ranthelo: 17-states.sheet: refused 4 at 0: states 17 is not 1 to 16\n",
    );
}

#[test]
fn make() {
    let told = "ranthelo: P1.sheet: 1 test appended\n";
    let made = "SIZE 2 2 2\nRULE 0 0 1 1\nRULE 0 1 0 0\nRULE 1 0 0 1\nRULE 1 1 1 0\nFAULT 1 1 1 1\nTEST 0 1\n\
                TEST 0 1 0\n";
    gives(&["make", "--text", "P1.sheet"], 0, made, told);
    let bytes = ranthelo::text::assemble(made.as_bytes()).expect("a text");
    let output = output(&["make", "P1.sheet"]);
    assert_eq!(output.stdout, bytes);
    assert_eq!((status(&output), text(&output.stderr)), (0, told.into()));
    let to = file("made.sheet", b"old");
    gives(&["make", "P1.sheet", "-o", &to], 0, "", told);
    assert_eq!(fs::read(&to).unwrap(), bytes);
    gives(&["make", "P1.sheet", "--text", "-o", &to], 0, "", told);
    assert_eq!(fs::read_to_string(to).unwrap(), made);
}

/// A complete list stays as it is, and every made list is complete.
#[test]
fn made_lists_are_complete() {
    let p2 = fs::read(examples().join("P2.sheet")).unwrap();
    let output = output(&["make", "P2.sheet"]);
    assert_eq!((status(&output), &output.stdout), (0, &p2));
    let told = "ranthelo: P2.sheet: 0 tests appended\n";
    assert_eq!(text(&output.stderr), told);
    for (name, appended) in [
        ("P1", 1),
        ("P3", 1),
        ("P4", 1),
        ("P9", 2),
        ("P10", 0),
        ("P1-start", 1),
        ("P4-quiet", 1),
        ("only-start", 1),
        ("256-tests", 0),
    ] {
        let output = common::output(&["make", &format!("{name}.sheet")]);
        let tests = if appended == 1 { "test" } else { "tests" };
        let told = format!("ranthelo: {name}.sheet: {appended} {tests} appended\n");
        assert_eq!((status(&output), text(&output.stderr)), (0, told));
        let judged = output_on(&["judge", "-"], &output.stdout);
        assert_eq!(
            (status(&judged), &judged.stdout[..]),
            (0, &b"complete\n"[..])
        );
        let again = output_on(&["make", "-"], &output.stdout);
        assert_eq!((status(&again), again.stdout), (0, output.stdout), "{name}");
    }
}

/// Where the next test does not fit, nothing is written.
#[test]
fn make_without_room() {
    let full = "full-list.txt";
    let to = file("unmade.sheet", b"old");
    let why = "the next test does not fit: 256 tests stand, 256 of them its own";
    let told = format!("ranthelo: {full}: refused 18 at 0: {why}\n");
    gives(&["make", full], 2, "", &told);
    gives(&["make", full, "-o", &to], 2, "", &told);
    assert_eq!(fs::read(to).unwrap(), b"old");
    gives(
        &["make", "unreachable-state.sheet"],
        2,
        "",
        "ranthelo: unreachable-state.sheet: refused 11 at 4: state 1 can't be reached by RULEs\n",
    );
}

#[test]
fn read() {
    let figures = "states 2\npresses 2\nsounds 2\nrules 4\nfaults 1\ntests 1\nopen pairs 1\n";
    gives(&["read", "P1.sheet"], 0, figures, "");
    gives(
        &["read", "empty.sheet"],
        2,
        "",
        "ranthelo: empty.sheet: refused 2 at 0: the sheet ends without END\n",
    );
    gives(
        &["read", "--test", "0", "P1.sheet"],
        0,
        "at 30, 4 bytes\npress 0 1\n",
        "",
    );
    gives(
        &["read", "--test=1", "P1.sheet"],
        2,
        "",
        "ranthelo: P1.sheet: refused 17 at 0: there is no test 1: the sheet has 1 test\n",
    );
}

#[test]
fn run() {
    let run = ["run", "--board", "1", "--press", "0,1,0", "P1.sheet"];
    gives(&run, 0, "sound 1 1 0\nused 0\n", "");
    gives(
        &["run", "P1.sheet", "--press=", "--board=0"],
        0,
        "sound\nused\n",
        "",
    );
    gives(
        &["run", "P4.sheet", "--board", "3 1", "--press", "1 1 0"],
        0,
        "sound 1 1 0\nused 0 1\n",
        "",
    );
    gives(
        &["run", "P1.sheet", "--board", "1", "--press", "0,2"],
        2,
        "",
        "ranthelo: P1.sheet: refused 15 at 1: press 2 at index 1 is not below 2\n",
    );
    gives(
        &["run", "P1.sheet", "--board", "1"],
        3,
        "",
        "ranthelo: run needs --press; see ranthelo help run\n",
    );
    gives(
        &["run", "P1.sheet", "--board", "1", "--press", "0,x"],
        3,
        "",
        "ranthelo: run --press: x is no number; see ranthelo help run\n",
    );
}

#[test]
fn first_failed() {
    gives(
        &["first-failed", "P1.sheet", "--board", "1"],
        0,
        "passes\nused 0\n",
        "",
    );
    let failed = "fails\ntest 0\nposition 2\nused 0\n";
    gives(&["first-failed", "P2.sheet", "--board", "1"], 1, failed, "");
    let steps = "
open pair 0, state 1, press 1: choice 1, a FAULT: sound 1, next state 1; the RULE: sound 1, next state 0

position   press   specified         given
0          0       0 -> 1, sound 1   0 -> 1, sound 1
1          1       1 -> 0, sound 1   1 -> 1, sound 1   open pair 0
2          0       0 -> 1, sound 1   1 -> 1, sound 0   departs
";
    let explained = ["first-failed", "P2.sheet", "--board", "1", "--explain"];
    gives(&explained, 1, &format!("{failed}{steps}"), "");
    let yet = "It gives the specified sounds in the one test.\nYet it departs, which no test shows:\n\nposition";
    let missed = steps.replace("\nposition", &format!("\n{yet}"));
    let explained = ["first-failed", "P1.sheet", "--board", "1", "--explain"];
    gives(&explained, 0, &format!("passes\nused 0\n{missed}"), "");
    let passes = "\
passes
used 0

the open pair: choice 0, as specified

It gives the specified sounds in the one test.
It conforms: it gives the specified sound on every sequence of presses that the specification defines.
";
    let explained = ["first-failed", "P1.sheet", "--board", "0", "--explain"];
    gives(&explained, 0, passes, "");
    gives(
        &["first-failed", "P2.sheet", "--board", "2"],
        2,
        "",
        "ranthelo: P2.sheet: refused 14 at 0: choice 2 at open pair 0 (state 1, press 1), which has 2\n",
    );
}

#[test]
fn compare() {
    gives(
        &["compare", "P1.sheet", "--board", "0"],
        0,
        "conforms\n",
        "",
    );
    gives(
        &["compare", "P1.sheet", "--board", "1"],
        1,
        "departs\npress 0 1 0\n",
        "",
    );
    let explained = output(&["compare", "P4.sheet", "--board", "0,1", "--explain"]);
    let judged = output(&["judge", "P4.sheet", "--explain"]);
    let (explained, judged) = (text(&explained.stdout), text(&judged.stdout));
    let steps = judged
        .strip_prefix("survivor\nboard 0 1\n")
        .expect("a survivor");
    assert_eq!(explained, format!("departs\n{steps}"));
    let conforms = "\
conforms

open pair 0, state 0, press 1: choice 3, sound 1, next state 1; no RULE
the other open pair: choice 0, as specified

It conforms: it gives the specified sound on every sequence of presses that the specification defines.
On these sequences the specification and the board are in the following states together, and there each RULE
gives the sound that the board gives:

specified   board
0           0
1           1
";
    let explained = ["compare", "P4.sheet", "--board", "3,0", "--explain"];
    gives(&explained, 0, conforms, "");
    gives(
        &["compare", "P1.sheet", "--board", ""],
        2,
        "",
        "ranthelo: P1.sheet: refused 13 at 0: 0 choices, and the sheet has 1 open pair\n",
    );
}

#[test]
fn assemble() {
    let source = b"size 2 2 2 # small letters too\r\nRule 0 0 1 1\r\n\r\nTEST 0\r\n";
    let bytes = [1, 2, 2, 2, 2, 0, 0, 1, 1, 4, 5, 0, 6];
    let output = output_on(&["assemble", "-"], source);
    assert_eq!((status(&output), text(&output.stderr)), (0, String::new()));
    assert_eq!(output.stdout, bytes);
}

/// A sheet that reading refuses is assembled all the same, and the refusal told with its line.
#[test]
fn assemble_what_is_refused() {
    let source =
        b"SIZE 2 2 2\nRULE 0 0 1 1\nRULE 1 0 0 0\n# press 1 is undefined in state 1\nTEST 0 1\n";
    let told = "ranthelo: standard input: refused 9 at 17 (line 5): \
                the test has reached state 1, which has no RULE for press 1\n";
    let output = output_on(&["assemble", "-"], source);
    assert_eq!(
        (status(&output), text(&output.stderr)),
        (2, told.to_string())
    );
    let bytes = [1, 2, 2, 2, 2, 0, 0, 1, 1, 2, 1, 0, 0, 0, 4, 5, 0, 5, 1, 6];
    assert_eq!(output.stdout, bytes);
    let name = file("undefined.txt", source);
    let to = file("undefined.sheet", b"old");
    let output = common::output(&["assemble", &name, "-o", &to]);
    assert_eq!((status(&output), output.stdout.len()), (2, 0));
    assert_eq!(fs::read(to).unwrap(), bytes);
}

#[test]
fn assemble_tells_mistakes_by_line() {
    for (source, told) in [
        ("SIZE 1 1 1\nRULES 0 0 0 0", "line 2: RULES is no command"),
        (
            "\n# nothing\nSIZE 1 1",
            "line 3: SIZE takes 3 operands (states, presses, sounds), not 2",
        ),
        ("SIZE 1 1 1\nTEST 0 256", "line 2: 256 is not 0 to 255"),
        (
            "SIZE 1 1 1\nQUIET 1",
            "line 2: QUIET takes no operands, not 1",
        ),
        (
            "SIZE 1 1 1\nSTART",
            "line 2: START takes one operand (state), not 0",
        ),
        (
            "SIZE 1 1 1\nHEX 1",
            "line 2: 1 is not two hexadecimal digits",
        ),
    ] {
        let output = output_on(&["assemble", "-"], source.as_bytes());
        assert_eq!(
            text(&output.stderr),
            format!("ranthelo: standard input: {told}\n")
        );
        assert_eq!((status(&output), output.stdout.len()), (3, 0), "{source}");
    }
}

#[test]
fn write() {
    let p1 = fs::read(examples().join("P1.sheet")).unwrap();
    let output = output(&["write", "P1.sheet"]);
    assert_eq!((status(&output), &output.stdout), (0, &p1));
    let lines = text(&common::output(&["write", "--text", "P1.sheet"]).stdout);
    let mixed: Vec<&str> = lines.lines().rev().collect();
    let output = output_on(&["write", "-"], mixed.join("\n").as_bytes());
    assert_eq!(status(&output), 2, "{}", text(&output.stderr));
    let told = "ranthelo: standard input: refused 6 at 0: RULEs, FAULTs or STARTs do not ascend\n";
    assert_eq!(text(&output.stderr), told);
    let tests_first = b"TEST 0\nSIZE 1 1 1\nRULE 0 0 0 0";
    let output = output_on(&["write", "-", "--text"], tests_first);
    assert_eq!(text(&output.stdout), "SIZE 1 1 1\nRULE 0 0 0 0\nTEST 0\n");
}

#[test]
fn write_takes_tables_only() {
    for (source, told) in [
        ("SIZE 1 1 1\nHEX 00\nTEST", "no table has HEX 00, at 4"),
        ("SIZE 1 1 1\nPRESS 0", "no table has PRESS 0, at 4"),
        ("SIZE 1 1 1\nSIZE 1 1 1", "no table has SIZE 1 1 1, at 4"),
        ("SIZE 1 1 1\nEND\nTEST", "no table has END, at 4"),
    ] {
        let output = output_on(&["write", "-"], source.as_bytes());
        assert_eq!(
            text(&output.stderr),
            format!("ranthelo: standard input: {told}\n")
        );
        assert_eq!((status(&output), output.stdout.len()), (3, 0));
    }
}

#[test]
fn generate() {
    let sheet = ranthelo::generate(7, [3, 2, 2]).unwrap();
    let output = output(&["generate", "7", "3", "2", "2"]);
    assert_eq!((status(&output), &output.stdout), (0, &sheet));
    let spelled = ranthelo::text::disassemble(&sheet);
    gives(&["generate", "7", "3", "2", "2", "--text"], 0, &spelled, "");
    gives(
        &["generate", "7", "3", "2", "17"],
        2,
        "",
        "ranthelo: generate: refused 4 at 0: 3 states, 2 presses and 17 sounds: each is 1 to 16\n",
    );
    gives(
        &["generate", "7", "3", "2"],
        3,
        "",
        "ranthelo: generate takes SEED STATES PRESSES SOUNDS and options, 3 given; see ranthelo help generate\n",
    );
    gives(
        &["generate", "4294967296", "3", "2", "2"],
        3,
        "",
        "ranthelo: generate takes 0 to 4294967295 as SEED, not 4294967296; see ranthelo help generate\n",
    );
}

#[test]
fn list() {
    let expected = "      0  01 02 02 02     SIZE 2 2 2          2 states, 2 presses, 2 sounds
      4  02 00 00 01 01  RULE 0 0 1 1        state 0, press 0: sound 1, next state 1
      9  02 01 00 00 01  RULE 1 0 0 1        state 1, press 0: sound 0, next state 1
     14  02 01 01 01 00  RULE 1 1 1 0        state 1, press 1: sound 1, next state 0
     19  03 01 01 01 01  FAULT 1 1 1 1       state 1, press 1: sound 1, next state 1
     24  04              TEST                test 0
     25  05 00           PRESS 0             0 -> 1, sound 1
     27  05 01           PRESS 1             1 -> 0, sound 1
     29  06              END
open pair 0: state 0, press 1, 4 choices
      0 to 1  sound 0, next state 0 to 1
      2 to 3  sound 1, next state 0 to 1
open pair 1: state 1, press 1, 2 choices
      0  RULE   sound 1, next state 0
      1  FAULT  sound 1, next state 1
";
    gives(&["list", "P4.sheet"], 0, expected, "");
    gives(
        &["list", "unreachable-state.sheet"],
        2,
        "      0  01 02 01 01     SIZE 2 1 1          2 states, 1 press, 1 sound
>     4  06              END
         refused 11: state 1 can't be reached by RULEs
",
        "ranthelo: unreachable-state.sheet: refused 11 at 4: state 1 can't be reached by RULEs\n",
    );
    gives(&["list", "--text", "P6.sheet"], 0, "SIZE 1 1 1\n", "");
}

/// A sheet with START: the first choice of a board is the state in which it wakes.
#[test]
fn waking() {
    let explained = "\
departs
press 0

open pair 0, waking: choice 1, START: state 1; specified: state 0
the other open pair: choice 0, as specified

position   press   specified         given
0          0       0 -> 1, sound 1   1 -> 1, sound 0   departs
";
    gives(
        &["compare", "--explain", "--board", "1,0", "P1-start.txt"],
        1,
        explained,
        "",
    );
    gives(
        &["run", "--board", "1,0", "--press=", "P1-start.txt"],
        0,
        "sound\nused 0\n",
        "",
    );
    let listed = text(&output(&["list", "P1-start.sheet"]).stdout);
    assert!(
        listed
            .contains("     29  07 01           START 1             a board may wake in state 1\n")
    );
    assert!(
        listed.contains("open pair 0: waking, 2 choices\n      0  state 0\n      1  state 1\n")
    );
    let drawn = text(&output(&["draw", "P1-start.sheet"]).stdout);
    assert!(
        drawn.contains("  start -> 0\n  start -> 1 [style=dashed]\n"),
        "{drawn}"
    );
    let written = output(&["write", "P1-start.txt"]).stdout;
    assert_eq!(
        written,
        fs::read(examples().join("P1-start.sheet")).unwrap()
    );
}

/// A sheet with QUIET: a pair without a RULE is not open.
#[test]
fn quiet() {
    let source = "SIZE 1 2 2\nQUIET\nRULE 0 0 1 0\nTEST 0\n";
    let quiet = file("quiet.txt", source.as_bytes());
    gives(&["judge", &quiet], 0, "complete\n", "");
    gives(
        &["run", "--board=", "--press", "1,0,1", &quiet],
        0,
        "sound 0 1 0\nused\n",
        "",
    );
    gives(&["write", "--text", &quiet], 0, source, "");
    let listed = text(&output(&["list", &quiet]).stdout);
    assert!(
        listed.contains("a press without a RULE gives sound 0 and stays\n"),
        "{listed}"
    );
    let drawn = text(&output(&["draw", "--unspecified", &quiet]).stdout);
    assert!(
        drawn.contains("  0 -> 0 [label=\"1/0\" style=dotted]\n"),
        "{drawn}"
    );
}

#[test]
fn draw() {
    let dot = "\
digraph {
  rankdir=LR
  node [shape=circle]
  start [shape=point]
  any [label=\"any state\" shape=plaintext]
  start -> 0
  0 -> 1 [label=\"0/1\"]
  0 -> any [label=\"1/?\" style=dotted]
  1 -> 0 [label=\"1/1\"]
  1 -> 1 [label=\"0/0\"]
  1 -> 1 [label=\"1/1\" style=dashed]
}
";
    gives(&["draw", "--unspecified", "P4.sheet"], 0, dot, "");
    let drawn = output(&["draw", "--board", "0,1", "P4.sheet"]);
    let drawn = text(&drawn.stdout);
    assert!(drawn.contains("label=\"board 0 1 departs on 0 1 0\""));
    let path = "1 -> 1 [label=\"1/1 at 1\" style=dashed color=red fontcolor=red penwidth=3]";
    assert!(drawn.contains(path), "{drawn}");
    let specified = "1 -> 0 [label=\"1/1\" color=gray fontcolor=gray]";
    assert!(drawn.contains(specified), "{drawn}");
    gives(
        &["draw", "--board", "0", "P4.sheet"],
        2,
        "",
        "ranthelo: P4.sheet: refused 13 at 0: 1 choice, and the sheet has 2 open pairs\n",
    );
    let picture = file("P4.svg", b"");
    gives(&["draw", "--svg", "P4.sheet", "-o", &picture], 0, "", "");
    assert!(fs::read_to_string(picture).unwrap().starts_with("<svg "));
}

#[test]
fn draw_a_table() {
    let table = "\
fresh start: state 0

state   press 0   press 1
0       1 -> 1    ?
1       0 -> 1    1 -> 0
                  ! 1 -> 1

sound -> next state; ! a FAULT; ? no RULE
";
    gives(&["draw", "--table", "P4.sheet"], 0, table, "");
    let table = "\
board 1 0 departs on 0

fresh start: ! state 1, = state 0

state   press 0       press 1
0       1 -> 1        0 -> 0
1       0 -> 1 at 0   1 -> 0

sound -> next state; ! a START; = what is specified there; at a position of the departing sequence
";
    gives(
        &["draw", "--table", "--board", "1,0", "P1-start.txt"],
        0,
        table,
        "",
    );
}

#[test]
fn draw_a_mealy_machine() {
    let nodes = "  __start0 [label=\"\" shape=\"none\"];\n  s0 [shape=\"circle\" label=\"s0\"];\n  \
                 s1 [shape=\"circle\" label=\"s1\"];\n  __start0 -> s0;\n";
    let rules = "  s0 -> s1 [label=\"0/1\"];\n  s1 -> s1 [label=\"0/0\"];\n";
    let specified = format!("digraph {{\n{nodes}{rules}  s1 -> s0 [label=\"1/1\"];\n}}\n");
    gives(&["draw", "--mealy", "P4.sheet"], 0, &specified, "");
    let board = format!("digraph {{\n{nodes}{rules}  s1 -> s1 [label=\"1/1\"];\n}}\n");
    gives(
        &["draw", "--mealy", "--board", "0,1", "P4.sheet"],
        0,
        &board,
        "",
    );
    let both = "ranthelo: draw takes --svg or --mealy, not both; see ranthelo help draw\n";
    gives(&["draw", "--mealy", "--svg", "P4.sheet"], 3, "", both);
}

#[test]
fn either_form_and_standard_input() {
    let p1 = fs::read(examples().join("P1.sheet")).unwrap();
    let source = ranthelo::text::disassemble(&p1);
    for word in WORDS {
        let expected = output(&with(word, &["P1.sheet"]));
        for input in [&p1[..], source.as_bytes()] {
            let output = output_on(&with(word, &["-"]), input);
            assert_eq!(output.stdout, expected.stdout, "{word:?}");
            let told = text(&output.stderr).replace("standard input", "P1.sheet");
            assert_eq!(told, text(&expected.stderr), "{word:?}");
            assert_eq!(status(&output), status(&expected), "{word:?}");
        }
    }
}

#[test]
fn missing_and_unreadable_files() {
    for word in WORDS {
        let gone = "ranthelo: no.sheet: No such file or directory (os error 2)\n";
        gives(&with(word, &["no.sheet"]), 3, "", gone);
        let folder = "ranthelo: .: Is a directory (os error 21)\n";
        gives(&with(word, &["."]), 3, "", folder);
        let mistake = file("mistake.txt", b"SIZE 1 1 1\nRULE 0 0 0 zero\n");
        let told = format!("ranthelo: {mistake}: line 2: zero is no number\n");
        gives(&with(word, &[&mistake]), 3, "", &told);
    }
}

/// One line on standard error, and nothing but a listing, a verdict or the assembled bytes on standard output.
#[test]
fn refused_sheets() {
    for word in WORDS {
        let output = output(&with(word, &["257-tests.sheet"]));
        let told = text(&output.stderr);
        let refused = match word[0] {
            "write" => "ranthelo: 257-tests.sheet: refused 8 at 0: ",
            _ => "ranthelo: 257-tests.sheet: refused 8 at 260: 256 TESTs stand before it",
        };
        assert!(told.starts_with(refused), "{word:?}: {told}");
        assert_eq!((status(&output), told.lines().count()), (2, 1), "{word:?}");
        let speaks = ["judge", "list", "assemble"].contains(&word[0]);
        assert_eq!(output.stdout.is_empty(), !speaks, "{word:?}");
    }
}

#[test]
fn too_long_input() {
    let long = file("long.sheet", &[6; 3_000_000]);
    let told = format!("ranthelo: {long}: refused 1 at 16384: over 16,384 bytes\n");
    gives(&["judge", &long], 2, "refused 1 at 16384\n", &told);
    let long = file("long.txt", &[b'\n'; 1_048_577]);
    let told = format!("ranthelo: {long}: the text has over 1,048,576 bytes\n");
    gives(&["judge", &long], 3, "", &told);
}

#[test]
fn bad_usage() {
    gives(
        &[],
        3,
        "",
        "ranthelo: a word is missing; see ranthelo help\n",
    );
    gives(
        &["jduge", "P1.sheet"],
        3,
        "",
        "ranthelo: jduge is no word of ranthelo; judge is near; see ranthelo help\n",
    );
    for word in WORDS {
        let name = word[0];
        let see = format!("; see ranthelo help {name}\n");
        let several = ["judge", "read", "run", "first-failed", "compare", "list"];
        let one = !several.contains(&name);
        let takes = if one { "SHEET" } else { "SHEET.." };
        let none = format!("ranthelo: {name} takes {takes} and options, 0 given{see}");
        gives(word, 3, "", &none);
        if one {
            let two = format!("ranthelo: {name} takes {takes} and options, 2 given{see}");
            gives(&with(word, &["P1.sheet", "P2.sheet"]), 3, "", &two);
        }
        let unknown = format!("ranthelo: {name} has no option --odd{see}");
        gives(&with(word, &["--odd", "P1.sheet"]), 3, "", &unknown);
    }
    let twice = "ranthelo: judge --explain is given twice; see ranthelo help judge\n";
    gives(
        &["judge", "--explain", "--explain", "P1.sheet"],
        3,
        "",
        twice,
    );
    let value = "ranthelo: judge --explain takes no value; see ranthelo help judge\n";
    gives(&["judge", "--explain=1", "P1.sheet"], 3, "", value);
    let missing = "ranthelo: compare --board takes a value: LIST; see ranthelo help compare\n";
    gives(&["compare", "P1.sheet", "--board"], 3, "", missing);
    gives(&["judge", "--", "P2.sheet"], 0, "complete\n", "");
}

#[test]
fn help() {
    let all = output(&["--help"]);
    assert_eq!((status(&all), all.stderr.len()), (0, 0));
    for name in WORDS.iter().map(|word| word[0]).chain(["generate"]) {
        assert!(
            text(&all.stdout).contains(&format!("\n  {name} ")),
            "{name}"
        );
        let help = output(&[name, "--help"]);
        assert_eq!((status(&help), help.stderr.len()), (0, 0), "{name}");
        let usage = format!("\nUsage: ranthelo {name} [OPTIONS] S");
        assert!(text(&help.stdout).contains(&usage), "{name}");
    }
    let version = format!("ranthelo {}\n", env!("CARGO_PKG_VERSION"));
    gives(&["--version"], 0, &version, "");
}

/// A device on which every write fails.
#[cfg(target_os = "linux")]
#[test]
fn failed_writes() {
    let full = || File::options().write(true).open("/dev/full").unwrap();
    for word in WORDS {
        let mut command = command(&with(word, &["P2.sheet"]));
        let output = command.stdout(full()).output().unwrap();
        let told = "ranthelo: standard output: No space left on device (os error 28)\n";
        assert_eq!(
            (status(&output), text(&output.stderr)),
            (3, told.to_string()),
            "{word:?}"
        );
    }
    for word in WORDS {
        if [
            "make", "assemble", "write", "draw", "faults", "add", "renumber",
        ]
        .contains(&word[0])
        {
            let told = "ranthelo: /dev/full: No space left on device (os error 28)\n";
            gives(&with(word, &["P2.sheet", "-o", "/dev/full"]), 3, "", told);
        }
    }
    let nowhere = "ranthelo: no/where: No such file or directory (os error 2)\n";
    gives(
        &["generate", "1", "1", "1", "1", "-o", "no/where"],
        3,
        "",
        nowhere,
    );
}
