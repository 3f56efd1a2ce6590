//! Rows in any order, fault models, and machines from elsewhere.

mod common;

use common::{file, gives, output, output_on, status, text};

const MIXED: &str = "\
TEST 0 1
FAULT 1 1 1 1
RULE 1 1 1 0
RULE 0 0 1 1
RULE 1 0 0 1
SIZE 2 2 2
RULE 0 1 0 0
";

#[test]
fn sort() {
    let mixed = file("mixed.txt", MIXED.as_bytes());
    let p1 = std::fs::read(common::examples().join("P1.sheet")).unwrap();
    assert_eq!(output(&["assemble", "--sort", &mixed]).stdout, p1);
    gives(
        &["judge", "--sort", &mixed],
        1,
        "survivor\nboard 1\npress 0 1 0\n",
        "",
    );
    let bytes = ranthelo::text::assemble(MIXED.as_bytes()).unwrap();
    let mixed = file("mixed.sheet", &bytes);
    gives(
        &["judge", "--sort", &mixed],
        1,
        "survivor\nboard 1\npress 0 1 0\n",
        "",
    );
}

/// What is refused for its order only names the option; what no order mends does not.
#[test]
fn refusals_name_the_option() {
    let source = "SIZE 1 2 2\nRULE 0 1 0 0\nRULE 0 0 0 0\n";
    let rules = file("rules.txt", source.as_bytes());
    let told = format!(
        "ranthelo: {rules}: refused 6 at 9 (line 3): it does not ascend after RULE 0 1 0 0; \
         --sort puts RULEs, FAULTs and STARTs in order\n"
    );
    gives(&["read", &rules], 2, "", &told);
    assert_eq!(status(&output(&["read", "--sort", &rules])), 0);
    let late = file("late.txt", b"SIZE 1 2 2\nTEST\nRULE 0 0 0 0\n");
    let told = format!(
        "ranthelo: {late}: refused 3 at 5 (line 3): RULE can't follow TEST; --sort puts RULEs, FAULTs and STARTs in \
         order\n"
    );
    gives(&["read", &late], 2, "", &told);
    let first = file("first.txt", b"TEST\nSIZE 1 2 2\nRULE 0 0 0 0\n");
    let told = format!(
        "ranthelo: {first}: refused 3 at 0 (line 1): TEST can't stand before SIZE; --sort puts RULEs, FAULTs and \
         STARTs in order\n"
    );
    gives(&["read", &first], 2, "", &told);
    assert_eq!(status(&output(&["read", "--sort", &first])), 0);
    let twice = file("twice.txt", b"SIZE 1 2 2\nRULE 0 0 0 0\nRULE 0 0 1 0\n");
    let told = format!(
        "ranthelo: {twice}: refused 6 at 9 (line 3): it does not ascend after RULE 0 0 0 0\n"
    );
    gives(&["read", &twice], 2, "", &told);
    gives(&["read", "--sort", &twice], 2, "", &told);
}

/// Lines keep their numbers when they are put in order.
#[test]
fn sorted_lines_keep_numbers() {
    let source = "SIZE 1 2 2\nTEST 0 1\nRULE 0 0 0 0\n";
    let undefined = file("sorted-undefined.txt", source.as_bytes());
    let told = format!(
        "ranthelo: {undefined}: refused 9 at 12 (line 2): the test has reached state 0, which has no RULE for press 1\n"
    );
    gives(&["read", "--sort", &undefined], 2, "", &told);
}

#[test]
fn faults() {
    gives(
        &["faults", "--output", "P1.txt"],
        0,
        "FAULT 0 0 0 1\nFAULT 0 1 1 0\nFAULT 1 0 1 1\nFAULT 1 1 0 0\n",
        "",
    );
    // The sheet has FAULT 1 1 1 1 already.
    gives(
        &["faults", "--transfer", "P1.txt"],
        0,
        "FAULT 0 0 1 0\nFAULT 0 1 0 1\nFAULT 1 0 0 0\n",
        "",
    );
    let both = text(&output(&["faults", "--output", "--transfer", "P1.txt"]).stdout);
    assert_eq!(both.lines().count(), 7);
    let all = text(&output(&["faults", "--all", "P1.txt"]).stdout);
    assert_eq!(all.lines().count(), 11);
    let source = std::fs::read_to_string(common::examples().join("P1.txt")).unwrap() + &all;
    let more = output_on(&["read", "--sort", "-"], source.as_bytes());
    assert!(
        text(&more.stdout).contains("faults 12\n"),
        "{}",
        text(&more.stderr)
    );
    gives(
        &["faults", "P1.txt"],
        3,
        "",
        "ranthelo: faults needs --output, --transfer or --all; see ranthelo help faults\n",
    );
    gives(
        &["faults", "--all", "unreachable-state.sheet"],
        2,
        "",
        "ranthelo: unreachable-state.sheet: refused 11 at 4: state 1 can't be reached by RULEs\n",
    );
    let many = output(&["faults", "--all", "16-states.txt"]);
    assert_eq!(status(&many), 2, "{}", text(&many.stderr));
    let named =
        "SIZE 1 1 2\nSTATES only\nPRESSES knock\nSOUNDS click bolt\nRULE only knock click only\n";
    let named = output_on(&["faults", "--all"], named.as_bytes());
    assert_eq!(text(&named.stdout), "FAULT only knock bolt only\n");
}

const DOT: &str = r#"// as a learner writes it
digraph g {
    graph [label="a machine"];
    __start0 [label="" shape="none"];
    s0 [shape="circle" label="0"];
    s1 [shape="circle" label="1"];
    s0 -> s1 [label="in put / 1"];
    s1 -> s0 [label="b/0"]; s1 -> s1 [label="in put/1", color=red]
    __start0 -> s0;
}
"#;

#[test]
fn import_dot() {
    let machine = file("machine.dot", DOT.as_bytes());
    let spelled = "SIZE 2 2 2\nSTATES s0 s1\nPRESSES in_put b\nRULE s0 in_put 1 s1\nRULE s1 in_put 1 s1\n\
                   RULE s1 b 0 s0\n";
    gives(&["import", &machine], 0, spelled, "");
    let piped = output_on(&["import"], DOT.as_bytes());
    assert_eq!(text(&piped.stdout), spelled);
    // Another state to start in is the first one.
    let second = DOT.replace("__start0 -> s0", "__start0 -> s1");
    let second = output_on(&["import", "-"], second.as_bytes());
    assert!(text(&second.stdout).starts_with("SIZE 2 2 2\nSTATES s1 s0\n"));
    for (source, told) in [
        (
            "digraph { a -> b [label=\"x/0\"]; a -> c [label=\"x/1\"] }",
            "line 1: state a has two transitions for x",
        ),
        (
            "digraph {\n a -> b [label=\"x/0",
            "line 2: a \" is not closed",
        ),
        (
            "digraph {\n a -> [label=x] }",
            "line 2: an arrow leads to nothing",
        ),
        ("digraph {\n a }", "line 1: the machine has no transition"),
        ("machine", "line 1: this is neither DOT nor KISS2"),
        ("", "line 1: this is neither DOT nor KISS2"),
    ] {
        let output = output_on(&["import", "-"], source.as_bytes());
        assert_eq!(
            text(&output.stderr),
            format!("ranthelo: standard input: {told}\n"),
            "{source}"
        );
        assert_eq!((status(&output), output.stdout.len()), (3, 0), "{source}");
    }
    let edges: String = (0..17)
        .map(|i| format!("n{i} -> n{} [label=\"a/0\"]\n", i + 1))
        .collect();
    let output = output_on(
        &["import", "-"],
        format!("digraph {{\n{edges}}}").as_bytes(),
    );
    assert_eq!(
        text(&output.stderr),
        "ranthelo: standard input: line 17: 18 states, over 16\n"
    );
}

/// A state that can't be reached: the text is written, and the refusal told.
#[test]
fn import_what_is_refused() {
    let output = output_on(
        &["import", "-"],
        b"digraph { a -> a [label=\"x/0\"]; b -> a [label=\"x/0\"] }",
    );
    assert_eq!(status(&output), 2);
    assert!(text(&output.stdout).starts_with("SIZE 2 1 1\nSTATES a b\n"));
    let told = "ranthelo: standard input: refused 11 at 14: state b can't be reached by RULEs\n";
    assert_eq!(text(&output.stderr), told);
}

const KISS: &str = "\
.i 2
.o 1
.p 4
.s 2
.r on
# input state next output
-1 off on 1
00 on off 0
1- on on 1
10 off * 0
.e
";

#[test]
fn import_kiss() {
    let machine = file("machine.kiss2", KISS.as_bytes());
    let spelled = "\
SIZE 2 4 2
STATES on off
PRESSES 00 01 10 11
RULE on 00 0 off
RULE on 10 1 on
RULE on 11 1 on
RULE off 01 1 on
RULE off 11 1 on
";
    gives(&["import", &machine], 0, spelled, "");
    for (source, told) in [
        (
            ".i 1\n0 a b",
            "line 2: a line has input, state, next state and output, not 3 words",
        ),
        (
            ".i 1\n- a b 1\n0 a a 1",
            "line 3: state a has two transitions for 0",
        ),
        (
            ".i 5\n----1 a b 1\n1---- b a 1",
            "line 3: the inputs ----1 and 1---- overlap, and have over 4 bits",
        ),
    ] {
        let output = output_on(&["import", "-"], source.as_bytes());
        assert_eq!(
            text(&output.stderr),
            format!("ranthelo: standard input: {told}\n"),
            "{source}"
        );
        assert_eq!(status(&output), 3, "{source}");
    }
    let wide = output_on(&["import", "-"], b".i 5\n00001 a b 1\n1---- b a 0\n");
    assert!(
        text(&wide.stdout).contains("PRESSES 00001 1----\n"),
        "{}",
        text(&wide.stdout)
    );
}
