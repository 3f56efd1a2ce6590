//! Every word of the command on good, damaged and missing input, with status and both outputs: the cases of matrix.txt.
//! A word without its cases fails here.

mod common;

use common::json::{Value, parse};
use common::{all_words as words, output, output_on, status, text};
use std::collections::BTreeSet;
use std::process::Output;

#[derive(Debug, Default)]
struct Case<'a> {
    kind: &'a str,
    arguments: Vec<&'a str>,
    /// Standard input, if there is one.
    input: Option<String>,
    stdout: String,
    /// Standard output goes on.
    more: bool,
    stderr: String,
    status: i32,
}

fn cases() -> Vec<Case<'static>> {
    let blocks = include_str!("matrix.txt").split("\n\n").skip(1);
    blocks.map(case).collect()
}

fn case(block: &'static str) -> Case<'static> {
    let mut case = Case::default();
    let mut ended = false;
    for line in block.lines() {
        let (mark, rest) = line.split_once(' ').unwrap_or((line, ""));
        match mark {
            "good:" | "damaged:" | "missing:" => {
                (case.kind, case.arguments) =
                    (mark.trim_end_matches(':'), rest.split(' ').collect());
            }
            "<" => *case.input.get_or_insert_default() += &format!("{rest}\n"),
            ">" => {
                let line = rest.replace("VERSION", env!("CARGO_PKG_VERSION"));
                case.stdout += &format!("{line}\n");
            }
            ">..." => case.more = true,
            "!" => case.stderr += &format!("{rest}\n"),
            "status" => (case.status, ended) = (rest.parse().expect("a status"), true),
            _ => panic!("{line}"),
        }
    }
    assert!(ended && !case.kind.is_empty(), "{block}");
    case
}

impl Case<'_> {
    fn word(&self) -> &str {
        self.arguments[0]
    }

    fn output(&self, more: &[&str]) -> Output {
        let arguments = [&self.arguments[..], more].concat();
        match &self.input {
            Some(input) => output_on(&arguments, input.as_bytes()),
            None => output(&arguments),
        }
    }
}

fn help(word: &str) -> String {
    text(&output(&["help", word]).stdout)
}

/// What a word takes besides options, as its help has it.
fn takes(word: &str) -> String {
    let help = help(word);
    let usage = help
        .lines()
        .find_map(|line| line.strip_prefix("Usage: ranthelo "));
    let usage = usage.expect("a usage").replace(" [OPTIONS]", "");
    usage
        .strip_prefix(word)
        .expect("the word")
        .trim()
        .to_string()
}

#[test]
fn status_and_both_outputs() {
    for case in cases() {
        let output = case.output(&[]);
        let stdout = text(&output.stdout);
        match case.more {
            true => assert!(
                stdout.starts_with(&case.stdout) && stdout != case.stdout,
                "{case:?}"
            ),
            false => assert_eq!(stdout, case.stdout, "{case:?}"),
        }
        assert_eq!(text(&output.stderr), case.stderr, "{case:?}");
        assert_eq!(status(&output), case.status, "{case:?}");
    }
}

/// Each word has a good, a damaged and a missing input. Of files that it takes one is not there, and once none is
/// named.
#[test]
fn every_word_has_its_cases() {
    let (words, cases) = (words(), cases());
    let known: BTreeSet<&str> = words.iter().map(String::as_str).collect();
    let tried: BTreeSet<&str> = cases.iter().map(Case::word).collect();
    assert_eq!(tried, known);
    for word in &words {
        let own = || cases.iter().filter(|case| case.word() == word);
        let takes = takes(word);
        let some = |kind: &str, test: &dyn Fn(&Case) -> bool| {
            own().any(|case| case.kind == kind && test(case))
        };
        assert!(some("good", &|case| case.status < 2), "{word}");
        assert!(
            some("damaged", &|case| case.status > 1
                && !case.stderr.is_empty()),
            "{word}"
        );
        if takes.is_empty() {
            continue;
        }
        assert!(some("missing", &|_| true), "{word}");
        if ["SHEET", "FIRST", "FILE"]
            .iter()
            .any(|file| takes.starts_with(file))
        {
            let gone = "No such file or directory (os error 2)\n";
            assert!(
                some("missing", &|case| case.stderr.ends_with(gone)),
                "{word}"
            );
            let none = " and options, 0 given; see ranthelo help ";
            assert!(
                some("missing", &|case| case.stderr.contains(none)),
                "{word}"
            );
        }
    }
}

/// With `--json` every case ends with the same status and says the same on standard error; what is printed are objects,
/// a line each, with an answer, and but for the talk of a station and a lock with the file. Only of bad usage nothing
/// is printed.
#[test]
fn every_answer_as_json() {
    let with: BTreeSet<String> = words()
        .into_iter()
        .filter(|word| help(word).contains("\n  --json "))
        .collect();
    let without: Vec<String> = words()
        .into_iter()
        .filter(|word| !with.contains(word))
        .collect();
    assert_eq!(without, ["help", "completion", "man"]);
    for case in cases().iter().filter(|case| with.contains(case.word())) {
        let more: &[&str] = if case.arguments.contains(&"--json") {
            &[]
        } else {
            &["--json"]
        };
        let output = case.output(more);
        assert_eq!(
            (status(&output), text(&output.stderr)),
            (case.status, case.stderr.clone()),
            "{case:?}"
        );
        let objects: Vec<Value> = text(&output.stdout).lines().map(parse).collect();
        let usage = case.stderr.contains("; see ranthelo help ");
        assert!(usage || !objects.is_empty(), "{case:?}");
        for object in &objects {
            assert!(!object.text("answer").is_empty(), "{case:?}");
            if !usage && !["station", "lock"].contains(&case.word()) {
                assert!(!object.text("file").is_empty(), "{case:?}");
            }
        }
    }
}
