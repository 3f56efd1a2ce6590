//! docs/PROOF-MAP.md and docs/ARCHITECTURE.md name only what is there: each file in back quotes exists, and each
//! `file:name` is defined in it.

use std::fs;
use std::path::{Path, PathBuf};

const KEYWORDS: [&str; 12] = [
    "pub",
    "pub(crate)",
    "extern",
    "\"C\"",
    "fn",
    "struct",
    "enum",
    "const",
    "abbrev",
    "unfoldable",
    "record",
    "data",
];

fn root() -> PathBuf {
    PathBuf::from(env!("CARGO_MANIFEST_DIR")).join("..")
}

const MAP: &str = "docs/PROOF-MAP.md";

/// What stands in back quotes on the page and has the form of a path.
fn references(page: &str) -> Vec<String> {
    let page = fs::read_to_string(root().join(page)).expect("the page");
    let quoted = page.split('`').skip(1).step_by(2);
    quoted
        .filter(|word| word.contains('/') && !word.contains(char::is_whitespace))
        .map(str::to_string)
        .collect()
}

/// Files are named from crates/, or else from the root.
fn located(path: &str) -> PathBuf {
    let inside = root().join("crates").join(path);
    if inside.exists() {
        inside
    } else {
        root().join(path)
    }
}

/// The line defines the name: `fn name(..`, `record name ..`, `pub name : ..`.
fn defines(line: &str, name: &str) -> bool {
    let mut words = line.split_whitespace().peekable();
    let mut marked = false;
    while words.next_if(|word| KEYWORDS.contains(word)).is_some() {
        marked = true;
    }
    let first = words.next().unwrap_or("");
    let rest = first.strip_prefix(name);
    let same = rest.is_some_and(|rest| rest.is_empty() || rest.starts_with(['(', '<', ':']));
    same && (marked || words.next() == Some(":"))
}

/// The line is a record's field or a contract's clause of that name.
fn is_part(line: &str, part: &str) -> bool {
    let mut words = line.split_whitespace();
    match words.next() {
        Some("pub") => words.next() == Some(part) && words.next() == Some(":"),
        Some("ensures") => words.next() == Some(part) && words.next() == Some("{"),
        _ => false,
    }
}

/// `file`, `file:name`, `file:record.field` or `file:function.clause` is there.
fn check(reference: &str) -> Result<(), String> {
    let missing = || Err(format!("{reference} is not there"));
    let (path, names) = reference.split_once(':').unwrap_or((reference, ""));
    if names.is_empty() {
        return if located(path).exists() {
            Ok(())
        } else {
            missing()
        };
    }
    let Ok(text) = fs::read_to_string(located(path)) else {
        return missing();
    };
    let (name, part) = names.split_once('.').unwrap_or((names, ""));
    let mut lines = text.lines().skip_while(|line| !defines(line, name));
    if lines.next().is_none() {
        return missing();
    }
    let mut parts = lines.take_while(|line| !line.is_empty() && *line != "{");
    if part.is_empty() || parts.any(|line| is_part(line, part)) {
        Ok(())
    } else {
        missing()
    }
}

#[test]
fn every_name_is_there() {
    for (page, least) in [(MAP, 100), ("docs/ARCHITECTURE.md", 40)] {
        let references = references(page);
        let wrong: Vec<String> = references.iter().filter_map(|r| check(r).err()).collect();
        assert!(wrong.is_empty(), "{page}: {wrong:#?}");
        assert!(references.len() > least, "{page}");
    }
}

#[test]
fn wrong_names_are_found() {
    assert_eq!(check("mutation/src/verdict.rt:judge.told"), Ok(()));
    for wrong in [
        "mutation/src/verdicts.rt",
        "mutation/src/verdicts.rt:judge",
        "mutation/src/verdict.rt:judges",
        "mutation/src/verdict.rt:judge.bytes",
        "mutation/src/lib.rt:told",
        "model/specs/Verdict.antt:Survive",
        "model/specs/Verdict.antt:FirstSurvivor.passes",
        "tests/tests/judge.rs:random",
    ] {
        assert!(check(wrong).is_err(), "{wrong}");
    }
}

fn edits(folder: &Path) -> Vec<PathBuf> {
    let entries = fs::read_dir(folder).map(|entries| entries.map(|entry| entry.unwrap().path()));
    entries.map_or(vec![], Iterator::collect)
}

#[test]
fn every_edit_is_listed() {
    let listed: Vec<PathBuf> = references(MAP).iter().map(|r| located(r)).collect();
    for member in fs::read_dir(root().join("crates")).unwrap() {
        for edit in edits(&member.unwrap().path().join("must-fail")) {
            assert!(listed.contains(&edit), "{}", edit.display());
        }
    }
}

/// Each public operation has a promise, asks for nothing, and is listed.
#[test]
fn every_operation_promises() {
    let references = references(MAP);
    for file in [
        "sheet/src/lib.rt",
        "commands/src/lib.rt",
        "reading/src/lib.rt",
        "writing/src/lib.rt",
        "generator/src/lib.rt",
        "numbering/src/lib.rt",
        "mutation/src/lib.rt",
        "mutation/src/verdict.rt",
        "adding/src/lib.rt",
        "walking/src/lib.rt",
        "making/src/lib.rt",
        "tray/src/lib.rt",
        "records/src/lib.rt",
        "merging/src/lib.rt",
        "station/src/lib.rt",
        "ranthelo/src/lib.rt",
        "ranthelo/src/driving.rt",
        "report/src/lib.rt",
    ] {
        let text = fs::read_to_string(located(file)).expect(file);
        let functions = text
            .split("\npub ")
            .map(|item| item.trim_start_matches("extern \"C\" "))
            .filter_map(|item| item.strip_prefix("fn "));
        for function in functions {
            let (name, _) = function.split_once('(').expect("parameters");
            let (contract, _) = function.split_once("\n{").expect("a body");
            assert!(contract.contains("\n    ensures"), "{name}");
            assert!(!contract.contains("\n    requires"), "{name}");
            assert!(references.contains(&format!("{file}:{name}")), "{name}");
        }
    }
}
