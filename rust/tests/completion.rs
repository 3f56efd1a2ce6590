//! Completion: the script for bash run by bash. Those for zsh and fish are run by bash too, as far as its grammar is
//! theirs, with functions in place of the shells' own that tell what they are given; where zsh or fish is installed, it
//! checks the syntax.

mod common;

use common::{all_words, file, gives, options, output, status, text};
use std::collections::BTreeMap;
use std::process::Command;

fn script(shell: &str) -> String {
    let script = output(&["completion", shell]);
    assert_eq!((status(&script), script.stderr.len()), (0, 0), "{shell}");
    text(&script.stdout)
}

/// What bash prints when it runs some lines.
fn run_by_bash(lines: &str) -> String {
    let bash = Command::new("bash").args(["-c", lines]).output();
    let bash = bash.expect("bash starts");
    assert_eq!(
        (text(&bash.stderr), bash.status.code()),
        (String::new(), Some(0)),
        "{lines}"
    );
    text(&bash.stdout)
}

/// The options of a word, and the one that all words have.
fn all_options(word: &str) -> Vec<String> {
    let mut all = options(word);
    all.push("--help".to_string());
    all
}

/// Whether an option takes a value: its help names it.
fn takes_value(word: &str, option: &str) -> bool {
    let help = text(&output(&["help", word]).stdout);
    let value = help
        .lines()
        .find_map(|line| line.strip_prefix(&format!("  {option} ")));
    value.is_some_and(|rest| rest.starts_with(|letter: char| letter.is_ascii_uppercase()))
}

/// What bash offers for the last of some words.
fn offered(words: &[&str]) -> Vec<String> {
    let name = file("completion.bash", script("bash").as_bytes());
    let list: String = words.iter().map(|word| format!("'{word}' ")).collect();
    let lines = format!(
        ". {name}; COMP_WORDS=(ranthelo {list}); COMP_CWORD={}; _ranthelo; printf '%s\\n' \"${{COMPREPLY[@]}}\"",
        words.len()
    );
    let offered = run_by_bash(&lines);
    offered
        .lines()
        .filter(|line| !line.is_empty())
        .map(str::to_string)
        .collect()
}

#[test]
fn bash_completes() {
    assert_eq!(offered(&["jud"]), ["judge"]);
    assert_eq!(offered(&["judge", "--expl"]), ["--explain"]);
    assert_eq!(offered(&["help", "first"]), ["first-failed"]);
    assert_eq!(offered(&["completion", ""]), ["bash", "zsh", "fish"]);
    assert!(offered(&["man", ""]).is_empty());
    let mut all = all_words();
    all.extend(["--help".to_string(), "--version".to_string()]);
    assert_eq!(offered(&[""]), all);
    for word in all_words() {
        assert_eq!(offered(&[&word, "-"]), all_options(&word), "{word}");
    }
    let spaced = file("a name with blanks.txt", b"SIZE 1 1 1\n");
    assert_eq!(
        offered(&["judge", spaced.trim_end_matches("blanks.txt")]),
        [spaced]
    );
}

/// What zsh's functions are given after some words: the words to describe, or the specifications of arguments.
fn described_by_zsh(words: &[&str]) -> Vec<String> {
    // Arrays of zsh begin at 1, and its shift takes an array.
    let (list, current) = (words.join(" "), words.len());
    let lines = format!(
        "shift() {{ :; }}; compdef() {{ :; }}; funcstack=()\n\
         _describe() {{ printf '%s\\n' \"${{words_of_it[@]}}\"; }}\n_arguments() {{ printf '%s\\n' \"$@\"; }}\n\
         {}\nwords=('' {list}); CURRENT={current}; _ranthelo\n",
        script("zsh")
    );
    run_by_bash(&lines).lines().map(str::to_string).collect()
}

/// A specification of zsh's _arguments: a name, what it does in brackets, and for a value two parts more.
fn option_of_zsh(given: &str) -> (String, bool) {
    let (name, rest) = given.split_once('[').unwrap_or_else(|| panic!("{given}"));
    let (does, value) = rest.split_once(']').unwrap_or_else(|| panic!("{given}"));
    assert!(!does.is_empty() && !does.contains(['[', ':']), "{given}");
    assert!(
        value.is_empty() || value.starts_with(':') && value.matches(':').count() == 2,
        "{given}"
    );
    (name.to_string(), !value.is_empty())
}

#[test]
fn zsh_gets_all_words_and_options() {
    let told = described_by_zsh(&["ranthelo", "''"]);
    let names: Vec<&str> = told
        .iter()
        .map(|line| line.split_once(':').expect("a purpose").0)
        .collect();
    assert_eq!(names, all_words());
    for word in all_words() {
        let given = described_by_zsh(&["ranthelo", &word, "''"]);
        let (rest, own): (Vec<String>, Vec<String>) =
            given.into_iter().partition(|one| one.starts_with('*'));
        let own: Vec<(String, bool)> = own.iter().map(|one| option_of_zsh(one)).collect();
        let expected = all_options(&word).into_iter().map(|option| {
            let value = takes_value(&word, &option);
            (option, value)
        });
        assert_eq!(own, expected.collect::<Vec<_>>(), "{word}");
        let expected = match word.as_str() {
            "man" => vec![],
            "help" => vec![format!("*:word:({})", all_words().join(" "))],
            "completion" => vec!["*:word:(bash zsh fish)".to_string()],
            _ => vec!["*:file:_files".to_string()],
        };
        assert_eq!(rest, expected, "{word}");
    }
    let first = script("zsh");
    assert!(first.starts_with("#compdef ranthelo\n"));
    // Read from fpath, the file is the function itself: the first time, too, it completes.
    let lines = format!(
        "_describe() {{ echo described; }}; compdef() {{ echo no; }}; words=('' ranthelo ''); CURRENT=2\n\
         funcstack=('' _ranthelo)\n{first}"
    );
    assert_eq!(run_by_bash(&lines), "described\n");
}

/// The words of a line that fish's complete is given: options that take a value, and those that take none.
fn line_of_fish(given: &str) -> BTreeMap<&str, &str> {
    let mut words = given.split('\x1f').filter(|word| !word.is_empty());
    let mut line = BTreeMap::new();
    while let Some(word) = words.next() {
        let value = match word {
            "-c" | "-n" | "-a" | "-d" | "-l" | "-s" => words.next().unwrap_or(""),
            "-f" | "-r" | "-x" | "-e" => "",
            other => panic!("{other}: {given}"),
        };
        assert_eq!(line.insert(word, value), None, "{given}");
    }
    assert_eq!(line.get("-c"), Some(&"ranthelo"), "{given}");
    line
}

#[test]
fn fish_gets_all_words_and_options() {
    let script = script("fish");
    // In fish a backslash between single quotes escapes; in bash it does not. There is none.
    let quoted = script.replace("'\\''", "");
    assert!(!quoted.contains('\\') && quoted.matches('\'').count().is_multiple_of(2));
    let told = run_by_bash(&format!(
        "complete() {{ printf '%s\\x1f' \"$@\"; echo; }}\n{script}"
    ));
    let lines: Vec<BTreeMap<&str, &str>> = told.lines().map(line_of_fish).collect();
    let at = |condition: &str| {
        lines
            .iter()
            .filter(move |line| line.get("-n") == Some(&condition))
            .collect::<Vec<_>>()
    };
    let names: Vec<&str> = at("__fish_use_subcommand")
        .iter()
        .map(|line| line["-a"])
        .collect();
    assert_eq!(names, all_words());
    for word in all_words() {
        let condition = format!("__fish_seen_subcommand_from {word}");
        let own = at(&condition);
        let name = |line: &BTreeMap<&str, &str>| match (line.get("-l"), line.get("-s")) {
            (Some(long), None) => Some(format!("--{long}")),
            (None, Some(short)) => Some(format!("-{short}")),
            _ => None,
        };
        let given: Vec<(String, bool)> = own
            .iter()
            .filter_map(|line| {
                Some((
                    name(line)?,
                    line.contains_key("-r") || line.contains_key("-x"),
                ))
            })
            .collect();
        let expected = all_options(&word).into_iter().map(|option| {
            let value = takes_value(&word, &option);
            (option, value)
        });
        assert_eq!(given, expected.collect::<Vec<_>>(), "{word}");
        let instead: Vec<&str> = own
            .iter()
            .filter_map(|line| line.get("-a").copied())
            .collect();
        let expected = match word.as_str() {
            "man" => vec![String::new()],
            "help" => vec![all_words().join(" ")],
            "completion" => vec!["bash zsh fish".to_string()],
            _ => vec![],
        };
        assert_eq!(instead, expected, "{word}");
    }
}

/// The shells themselves take their scripts, where they are installed.
#[test]
fn installed_shells_take_their_scripts() {
    for (shell, check) in [("bash", "-n"), ("zsh", "-n"), ("fish", "--no-execute")] {
        let name = file(&format!("syntax.{shell}"), script(shell).as_bytes());
        if let Ok(checked) = Command::new(shell).args([check, &name]).output() {
            assert_eq!(
                (text(&checked.stderr), checked.status.code()),
                (String::new(), Some(0)),
                "{shell}"
            );
        }
    }
    let unknown =
        "ranthelo: completion knows bash, zsh and fish, not csh; see ranthelo help completion\n";
    gives(&["completion", "csh"], 3, "", unknown);
}
