//! Several files for one word, and folders to write to.

mod common;

use common::json::{Value, lines};
use common::{examples, gives, output, output_on, status, text};
use std::fs;
use std::path::{Path, PathBuf};

/// An empty folder of the tests' own.
fn folder(name: &str) -> PathBuf {
    let folder = Path::new(env!("CARGO_TARGET_TMPDIR")).join(name);
    let _ = fs::remove_dir_all(&folder);
    fs::create_dir_all(&folder).unwrap();
    folder
}

fn called(path: &Path) -> &str {
    path.to_str().expect("a path in UTF-8")
}

fn names_in(folder: &Path) -> Vec<String> {
    let names = fs::read_dir(folder).unwrap();
    let mut names: Vec<String> = names
        .map(|entry| entry.unwrap().file_name().into_string().unwrap())
        .collect();
    names.sort();
    names
}

/// The words that write, with the options that they need, and the extension of what they write.
const WRITING: [(&[&str], &str); 12] = [
    (&["make"], "sheet"),
    (&["make", "--text"], "txt"),
    (&["make", "--tests"], "txt"),
    (&["add", "--test", "0"], "sheet"),
    (&["renumber"], "sheet"),
    (&["assemble"], "sheet"),
    (&["write", "--text"], "txt"),
    (&["faults", "--all"], "txt"),
    (&["draw"], "dot"),
    (&["draw", "--svg"], "svg"),
    (&["draw", "--table"], "txt"),
    (&["draw", "--mealy"], "dot"),
];

/// In the folder stands, under each file's name, what the word writes of the file alone.
#[test]
fn several_files_go_into_a_folder() {
    for (word, extension) in WRITING {
        let to = folder("several-files");
        let all = [word, &["-o", called(&to), "P1.txt", "P4.sheet"]].concat();
        let together = output(&all);
        assert_eq!(
            (status(&together), together.stdout.len()),
            (0, 0),
            "{word:?}"
        );
        let written = ["P1", "P4"].map(|name| format!("{name}.{extension}"));
        assert_eq!(names_in(&to), written, "{word:?}");
        let mut told = String::new();
        for (file, name) in ["P1.txt", "P4.sheet"].into_iter().zip(written) {
            let alone = output(&[word, &[file]].concat());
            assert_eq!(fs::read(to.join(name)).unwrap(), alone.stdout, "{word:?}");
            told += &text(&alone.stderr);
        }
        assert_eq!(text(&together.stderr), told, "{word:?}");
    }
}

/// As JSON they go to standard output, an object each, or to the folder.
#[test]
fn several_files_as_json() {
    for (word, _) in WRITING {
        let together = output(&[word, &["--json", "P1.txt", "P4.sheet"]].concat());
        assert_eq!(status(&together), 0, "{word:?}");
        let alone =
            ["P1.txt", "P4.sheet"].map(|file| output(&[word, &["--json", file]].concat()).stdout);
        assert_eq!(together.stdout, alone.concat(), "{word:?}");
        let files: Vec<String> = lines(&together.stdout)
            .iter()
            .map(|one| one.text("file").to_string())
            .collect();
        assert_eq!(files, ["P1.txt", "P4.sheet"], "{word:?}");
        let to = folder("several-json");
        let inside = output(&[word, &["--json", "-o", called(&to), "P1.txt", "P4.sheet"]].concat());
        assert_eq!((status(&inside), inside.stdout.len()), (0, 0), "{word:?}");
        let written = ["P1.json", "P4.json"].map(|name| fs::read(to.join(name)).unwrap());
        assert_eq!(written, alone, "{word:?}");
    }
}

/// Machines from elsewhere, too; one file into a folder as several.
#[test]
fn imports_into_a_folder() {
    let (from, to) = (folder("machines"), folder("imported"));
    fs::write(from.join("one.dot"), "digraph { a -> a [label=\"x/0\"] }").unwrap();
    fs::write(from.join("two.kiss2"), ".i 1\n0 a a 1\n").unwrap();
    let [one, two] = ["one.dot", "two.kiss2"].map(|name| from.join(name));
    gives(
        &["import", "-o", called(&to), called(&one), called(&two)],
        0,
        "",
        "",
    );
    assert_eq!(names_in(&to), ["one.txt", "two.txt"]);
    let lone = folder("one-imported");
    gives(&["import", "-o", called(&lone), called(&one)], 0, "", "");
    assert_eq!(names_in(&lone), ["one.txt"]);
    let merged = folder("merged");
    gives(
        &["merge", "-o", called(&merged), "P1.sheet", "P2.sheet"],
        0,
        "",
        "",
    );
    assert_eq!(names_in(&merged), ["P1.sheet"]);
    gives(
        &["generate", "-o", called(&merged), "1", "1", "1", "1"],
        0,
        "",
        "",
    );
    assert_eq!(names_in(&merged), ["P1.sheet", "generate.sheet"]);
}

/// What fails on one file leaves the others: the greatest status.
#[test]
fn what_fails_leaves_the_others() {
    let to = folder("some-fail");
    let files = ["empty.sheet", "P1.txt", "no.txt"];
    let told = "ranthelo: empty.sheet: refused 2 at 0: the sheet ends without END\n\
                ranthelo: P1.txt: 1 test appended\n\
                ranthelo: no.txt: No such file or directory (os error 2)\n";
    gives(
        &[&["make", "-o", called(&to)], &files[..]].concat(),
        3,
        "",
        told,
    );
    assert_eq!(names_in(&to), ["P1.sheet"]);
    let objects = output(&[&["make", "--json", "--quiet"], &files[..]].concat());
    assert_eq!(status(&objects), 3);
    let objects = lines(&objects.stdout);
    let answers: Vec<[&str; 2]> = objects
        .iter()
        .map(|one| [one.text("file"), one.text("answer")])
        .collect();
    assert_eq!(
        answers,
        [
            ["empty.sheet", "refused"],
            ["P1.txt", "made"],
            ["no.txt", "failed"]
        ]
    );
}

/// Nothing is written where a file would be lost: two files of one name, a file written over itself.
#[test]
fn no_file_is_lost() {
    let (from, to) = (folder("own-files"), folder("one-name"));
    for name in ["P1.txt", "P2.txt"] {
        fs::copy(examples().join(name), from.join(name)).unwrap();
    }
    let see = "see ranthelo help write\n";
    let own = from.join("P1.txt");
    let told = format!(
        "ranthelo: write would give P1.txt and {} one name; {see}",
        own.display()
    );
    gives(
        &["write", "-o", called(&to), "P1.txt", called(&own)],
        3,
        "",
        &told,
    );
    assert!(names_in(&to).is_empty());
    let before = fs::read(&own).unwrap();
    let told = format!(
        "ranthelo: {}: it is one of the files that were taken, and is not written over\n",
        own.display()
    );
    gives(
        &[
            "make",
            "--quiet",
            "--text",
            "-o",
            called(&from),
            called(&own),
        ],
        3,
        "",
        &told,
    );
    assert_eq!(fs::read(&own).unwrap(), before);
    let told = format!("ranthelo: write takes SHEET and options, 2 given; {see}");
    gives(&["write", "P1.txt", "P2.txt"], 3, "", &told);
    let told = format!(
        "ranthelo: write puts what it makes of several files into a folder: give -o FOLDER, or --json; {see}"
    );
    gives(&["write", "-o", "-", "P1.txt", "P2.txt"], 3, "", &told);
    let told = format!(
        "ranthelo: write puts what it makes of several files into a folder, and P1.txt is none; {see}"
    );
    gives(&["write", "-o", "P1.txt", "P2.txt", "P4.txt"], 3, "", &told);
    let piped = output_on(&["write", "-o", called(&to), "-"], &before);
    let told = format!("ranthelo: write - has no name to have in a folder; {see}");
    assert_eq!((status(&piped), text(&piped.stderr)), (3, told));
}

/// Walks over several sheets, and several records or files of boards for one sheet: as objects, each with its file.
#[test]
fn streams_of_several_files() {
    let told = |arguments: &[&str], file: &str, expected: i32| -> Vec<[String; 2]> {
        let output = output(arguments);
        assert_eq!(status(&output), expected, "{arguments:?}");
        let objects = lines(&output.stdout);
        let told = objects
            .iter()
            .map(|one| [one.text(file), one.text("answer")].map(str::to_string));
        told.collect()
    };
    let expected = [
        ["P1.txt", "conforms"],
        ["P1.txt", "departs"],
        ["P1.txt", "end"],
        ["no.txt", "failed"],
        ["P2.txt", "conforms"],
        ["P2.txt", "end"],
    ];
    let walked = ["walk", "--json", "P1.txt", "no.txt", "P2.txt"];
    assert_eq!(told(&walked, "file", 3), expected);
    let from = folder("records");
    let name = |name: &str, content: &str| {
        fs::write(from.join(name), content).unwrap();
        from.join(name).to_str().unwrap().to_string()
    };
    let (good, bad) = (
        name("good.log", "PULSE 0/1\n"),
        name("bad.log", "PULSE 0/0\n"),
    );
    let logged = output(&["log", "--json", "P1.txt", &good, &bad]);
    let given: Vec<bool> = lines(&logged.stdout)
        .iter()
        .map(|one| one.get("given") == Some(&Value::Bool(true)))
        .collect();
    assert_eq!((status(&logged), given), (1, vec![true, false]));
    let (one, two) = (name("one.txt", "0\n"), name("two.txt", "1\n0\n"));
    let tried = ["tray", "--json", "P2.txt", &one, &two];
    assert_eq!(
        told(&tried, "tray", 1),
        [[&*one, "tried"], [&*two, "tried"]]
    );
    // Without --json a walk, a record and a tray have one file.
    for word in ["walk", "log", "tray"] {
        let files = ["P2.txt", "P1.txt", "P2.txt"];
        let refused = output(&[&[word][..], &files].concat());
        assert_eq!((status(&refused), refused.stdout.len()), (3, 0), "{word}");
    }
}
