//! What goes for all words: several files, standard input, JSON, quiet, help, completion, the manual, writes that fail.

mod common;

use common::json::{Value, lines, parse};
use common::{all_words, command, examples, file, gives, options, output, output_on, status, text};
use std::fs;
use std::process::{Command, Stdio};
use std::thread::sleep;
use std::time::Duration;

#[test]
fn several_files() {
    gives(
        &["judge", "P1.sheet", "P2.txt"],
        1,
        "file P1.sheet\nsurvivor\nboard 1\npress 0 1 0\nfile P2.txt\ncomplete\n",
        "",
    );
    gives(
        &["read", "P6.txt", "empty.sheet", "no.sheet", "P6.txt"],
        3,
        "file P6.txt\nstates 1\npresses 1\nsounds 1\nrules 0\nfaults 0\ntests 0\nopen pairs 0\nfile empty.sheet\n\
         file no.sheet\nfile P6.txt\nstates 1\npresses 1\nsounds 1\nrules 0\nfaults 0\ntests 0\nopen pairs 0\n",
        "ranthelo: empty.sheet: refused 2 at 0: the sheet ends without END\n\
         ranthelo: no.sheet: No such file or directory (os error 2)\n",
    );
    gives(&["judge", "--quiet", "P2.txt", "P10.txt"], 0, "", "");
}

#[test]
fn standard_input_from_a_pipe() {
    let p1 = fs::read(examples().join("P1.sheet")).unwrap();
    for word in [
        &["judge"][..],
        &["read"],
        &["list"],
        &["make"],
        &["draw"],
        &["faults", "--all"],
    ] {
        let named = output_on(&[word, &["-"]].concat(), &p1);
        let piped = output_on(word, &p1);
        assert_eq!(
            (status(&piped), piped.stdout),
            (status(&named), named.stdout),
            "{word:?}"
        );
    }
    let mut from_file = command(&["judge"]);
    from_file.stdin(fs::File::open(examples().join("P2.txt")).unwrap());
    assert_eq!(from_file.output().unwrap().stdout, b"complete\n");
}

#[test]
fn dash_is_standard_output() {
    let p1 = output(&["write", "P1.txt"]).stdout;
    assert_eq!(output(&["write", "P1.txt", "-o", "-"]).stdout, p1);
    let drawn = output(&["draw", "P1.txt"]).stdout;
    assert_eq!(output(&["draw", "P1.txt", "-o", "-"]).stdout, drawn);
}

fn json(arguments: &[&str], expected: i32) -> Value {
    let output = output(arguments);
    assert_eq!(
        status(&output),
        expected,
        "{arguments:?}: {}",
        text(&output.stderr)
    );
    let mut all = lines(&output.stdout);
    assert_eq!(all.len(), 1, "{arguments:?}");
    all.remove(0)
}

#[test]
fn json_of_judging() {
    let survivor = json(&["judge", "--json", "P4.txt"], 1);
    assert_eq!(
        (survivor.text("file"), survivor.text("answer")),
        ("P4.txt", "survivor")
    );
    assert_eq!(
        (survivor.bytes("board"), survivor.bytes("press")),
        (vec![0, 1], vec![0, 1, 0])
    );
    assert_eq!(
        json(&["judge", "--json", "P2.txt"], 0).text("answer"),
        "complete"
    );
    let refused = json(&["judge", "--json", "257-tests.txt"], 2);
    let figures = ["number", "place", "line"].map(|name| refused.number(name));
    assert_eq!(
        (refused.text("answer"), figures),
        ("refused", [8, 260, 259])
    );
    assert_eq!(refused.text("why"), "256 TESTs stand before it");
    let explained = json(&["judge", "--json", "--explain", "P4.txt"], 1);
    assert!(explained.text("explained").contains("position"));
    let both = output(&["judge", "--json", "P1.txt", "no.txt"]);
    let both = lines(&both.stdout);
    assert_eq!(both.len(), 2);
    assert_eq!(both[1].text("answer"), "failed");
    assert_eq!(
        both[1].text("why"),
        "No such file or directory (os error 2)"
    );
}

#[test]
fn json_of_boards_and_sheets() {
    let read = json(&["read", "--json", "P4.txt"], 0);
    assert_eq!((read.number("states"), read.number("open_pairs")), (2, 2));
    let test = json(&["read", "--json", "--test", "0", "P1.txt"], 0);
    assert_eq!(
        (
            test.number("start"),
            test.number("length"),
            test.bytes("press")
        ),
        (30, 4, vec![0, 1])
    );
    let run = json(
        &[
            "run", "--json", "--board", "1", "--press", "0,1,0", "P1.txt",
        ],
        0,
    );
    assert_eq!(
        (run.bytes("sound"), run.bytes("used")),
        (vec![1, 1, 0], vec![0])
    );
    let failed = json(&["first-failed", "--json", "--board", "1", "P2.txt"], 1);
    let place = (failed.number("test"), failed.number("position"));
    assert_eq!((failed.text("answer"), place), ("fails", (0, 2)));
    assert_eq!(
        json(&["compare", "--json", "--board", "0", "P1.txt"], 0).text("answer"),
        "conforms"
    );
    let departs = json(&["compare", "--json", "--board", "1", "P1.txt"], 1);
    assert_eq!(
        (departs.text("answer"), departs.bytes("press")),
        ("departs", vec![0, 1, 0])
    );
    let listed = json(&["list", "--json", "P1-start.txt"], 0);
    let all: Vec<u8> = listed
        .list("commands")
        .iter()
        .flat_map(|one| one.bytes("bytes"))
        .collect();
    assert_eq!(all, fs::read(examples().join("P1-start.sheet")).unwrap());
    let pairs = listed.list("open_pairs");
    assert_eq!(pairs[0].get("waking"), Some(&Value::Bool(true)));
    assert_eq!(
        (pairs[1].number("state"), pairs[1].list("choices").len()),
        (1, 2)
    );
    assert_eq!(
        json(&["list", "--json", "empty.sheet"], 2).text("answer"),
        "refused"
    );
}

#[test]
fn json_of_written_sheets() {
    let p1 = fs::read(examples().join("P1.sheet")).unwrap();
    for word in ["assemble", "write"] {
        let written = json(&[word, "--json", "P1.txt"], 0);
        assert_eq!(
            (written.text("answer"), written.bytes("sheet")),
            ("written", p1.clone())
        );
        assert_eq!(
            ranthelo::text::assemble(written.text("text").as_bytes()).unwrap(),
            p1
        );
    }
    let made = json(&["make", "--json", "P1.txt"], 0);
    assert_eq!(made.list("tests").len(), 1);
    assert_eq!(made.get("complete"), Some(&Value::Bool(true)));
    assert_eq!(made.bytes("sheet"), output(&["make", "P1.txt"]).stdout);
    let seeded = json(&["generate", "--json", "7", "3", "2", "2"], 0);
    assert_eq!(
        seeded.bytes("sheet"),
        ranthelo::generate(7, [3, 2, 2]).unwrap()
    );
    assert_eq!(
        json(&["faults", "--json", "--all", "P1.txt"], 0)
            .list("faults")
            .len(),
        11
    );
    let mistaken = file("json-mistakes.txt", b"SIZE\nTEST \"x\\\n");
    let mistaken = json(&["judge", "--json", &mistaken], 3);
    let all = mistaken.list("mistakes");
    assert_eq!((all.len(), all[1].number("line")), (2, 2));
    assert_eq!(all[1].text("what"), "\"x\\ is no number");
    let named = file("json-named.txt", b"SIZE 1 1 1\nPRESSES \xc3\xa9\nTEST\n");
    let named = json(&["judge", "--json", &named], 0);
    let names = named.get("names").expect("names");
    assert_eq!(names.list("presses"), [Value::Text("\u{e9}".to_string())]);
    let imported = output_on(&["import", "--json"], b"digraph { a -> a [label=\"x/0\"] }");
    let imported = parse(&text(&imported.stdout));
    assert_eq!(imported.text("answer"), "imported");
}

/// What a picture shows is what the machine or the board does; the picture itself is the one that is drawn without
/// JSON.
#[test]
fn json_of_pictures() {
    for form in [&[][..], &["--svg"], &["--table"], &["--mealy"]] {
        let drawn = json(&[&["draw", "--json", "P4.txt"], form].concat(), 0);
        let plain = output(&[&["draw", "P4.txt"], form].concat());
        assert_eq!(drawn.text("picture"), text(&plain.stdout), "{form:?}");
        assert_eq!(drawn.text("answer"), "drawn");
    }
    let rows = |drawn: &Value, line: &str| -> Vec<[u64; 4]> {
        let own = drawn.list("transitions").iter();
        let own = own.filter(|one| one.text("line") == line);
        own.map(|one| ["state", "press", "sound", "next"].map(|name| one.number(name)))
            .collect()
    };
    let machine = json(&["draw", "--json", "--unspecified", "P4.txt"], 0);
    let sizes = ["states", "presses", "sounds"].map(|name| machine.number(name));
    assert_eq!(sizes, [2, 2, 2]);
    assert_eq!(
        rows(&machine, "rule"),
        [[0, 0, 1, 1], [1, 0, 0, 1], [1, 1, 1, 0]]
    );
    assert_eq!(rows(&machine, "fault"), [[1, 1, 1, 1]]);
    let free = machine.list("transitions").iter();
    let free: Vec<&Value> = free
        .filter(|one| one.text("line") == "unspecified")
        .collect();
    assert_eq!(free.len(), 1);
    assert_eq!((free[0].number("state"), free[0].number("press")), (0, 1));
    assert_eq!((free[0].get("sound"), free[0].get("next")), (None, None));
    let board = json(&["draw", "--json", "--board", "1", "P1.txt"], 0);
    assert_eq!(board.text("title"), "board 1 departs on 0 1 0");
    assert_eq!(rows(&board, "fault"), [[1, 1, 1, 1]]);
    assert_eq!(rows(&board, "specified"), [[1, 1, 1, 0]]);
    let mut met: Vec<u8> = board
        .list("transitions")
        .iter()
        .flat_map(|one| one.bytes("positions"))
        .collect();
    met.sort();
    assert_eq!(met, [0, 1, 2]);
    let waking = json(&["draw", "--json", "P1-start.txt"], 0);
    let wakings = waking.list("wakings").iter();
    let wakings: Vec<(u64, &str)> = wakings
        .map(|one| (one.number("state"), one.text("line")))
        .collect();
    assert_eq!(wakings, [(0, "rule"), (1, "fault")]);
}

/// A failure of any word is an object too, with the file that it is about; and so is a refusal.
#[test]
fn json_of_failures() {
    let merged = json(&["merge", "--json", "P1.txt", "empty.sheet"], 2);
    assert_eq!(
        (
            merged.text("file"),
            merged.text("answer"),
            merged.number("number")
        ),
        ("empty.sheet", "refused", 2)
    );
    let made = json(&["make", "--json", "full-list.txt"], 2);
    assert_eq!((made.number("number"), made.number("place")), (18, 0));
    let walked = json(&["walk", "--json", "no.txt"], 3);
    assert_eq!(
        (walked.text("file"), walked.text("answer")),
        ("no.txt", "failed")
    );
    let started = json(&["station", "--json", "P1.txt"], 2);
    assert_eq!(started.number("number"), 22);
    let unwritten = json(&["write", "--json", "P1.txt", "-o", "no/where"], 3);
    assert_eq!(unwritten.text("file"), "no/where");
}

/// The answer is not printed, and the status tells it; what went wrong is still told.
#[test]
fn quiet() {
    for word in [
        &["judge"][..],
        &["compare", "--board", "1"],
        &["list"],
        &["read"],
    ] {
        let loud = output(&[word, &["P1.txt"]].concat());
        let quiet = output(&[word, &["--quiet", "P1.txt"]].concat());
        assert_eq!(
            (status(&quiet), quiet.stdout.len(), quiet.stderr.len()),
            (status(&loud), 0, 0)
        );
    }
    let told = "ranthelo: empty.sheet: refused 2 at 0: the sheet ends without END\n";
    gives(&["judge", "--quiet", "empty.sheet"], 2, "", told);
    let made = output(&["make", "--quiet", "P1.txt"]);
    assert_eq!(
        (status(&made), made.stdout.is_empty(), made.stderr.len()),
        (0, false, 0)
    );
}

#[test]
fn help() {
    let words = all_words();
    assert!(words.len() >= 15, "{words:?}");
    assert_eq!(output(&["help"]).stdout, output(&["--help"]).stdout);
    for word in &words {
        let help = output(&["help", word]);
        assert_eq!((status(&help), help.stderr.len()), (0, 0), "{word}");
        assert_eq!(output(&[word, "--help"]).stdout, help.stdout, "{word}");
        assert!(
            text(&help.stdout).starts_with(&format!("ranthelo {word}: ")),
            "{word}"
        );
        assert!(text(&help.stdout).ends_with('\n'), "{word}");
    }
    gives(
        &["help", "mkae"],
        3,
        "",
        "ranthelo: mkae is no word of ranthelo; make is near; see ranthelo help\n",
    );
    gives(
        &["help", "zzzz"],
        3,
        "",
        "ranthelo: zzzz is no word of ranthelo; see ranthelo help\n",
    );
    gives(
        &["judge", "--explian", "P1.txt"],
        3,
        "",
        "ranthelo: judge has no option --explian; --explain is near; see ranthelo help judge\n",
    );
}

#[test]
fn completion_has_all_words_and_options() {
    for shell in ["bash", "zsh", "fish"] {
        let script = output(&["completion", shell]);
        assert_eq!((status(&script), script.stderr.len()), (0, 0), "{shell}");
        let script = text(&script.stdout);
        for word in all_words() {
            assert!(script.contains(&word), "{shell}: {word}");
            for option in options(&word) {
                let name = option.trim_start_matches('-');
                assert!(script.contains(name), "{shell}: {word} {option}");
            }
        }
    }
    gives(
        &["completion", "csh"],
        3,
        "",
        "ranthelo: completion knows bash, zsh and fish, not csh; see ranthelo help completion\n",
    );
}

/// What bash offers for the last of some words.
fn offered(words: &[&str]) -> Vec<String> {
    let script = file("completion.bash", &output(&["completion", "bash"]).stdout);
    let list: String = words.iter().map(|word| format!("'{word}' ")).collect();
    let asked = format!(
        ". {script}; COMP_WORDS=(ranthelo {list}); COMP_CWORD={}; _ranthelo; printf '%s\\n' \"${{COMPREPLY[@]}}\"",
        words.len()
    );
    let output = Command::new("bash")
        .args(["-c", &asked])
        .output()
        .expect("bash starts");
    assert_eq!(text(&output.stderr), "");
    text(&output.stdout)
        .split_whitespace()
        .map(str::to_string)
        .collect()
}

#[test]
fn bash_completes() {
    assert_eq!(offered(&["jud"]), ["judge"]);
    assert_eq!(offered(&["judge", "--expl"]), ["--explain"]);
    assert_eq!(offered(&["help", "first"]), ["first-failed"]);
    assert_eq!(offered(&["completion", ""]), ["bash", "zsh", "fish"]);
    let mut all = all_words();
    all.extend(["--help".to_string(), "--version".to_string()]);
    assert_eq!(offered(&[""]), all);
    for word in all_words() {
        let mut expected = options(&word);
        expected.push("--help".to_string());
        assert_eq!(offered(&[&word, "-"]), expected, "{word}");
    }
}

/// The page has every word and option, and groff takes it without a warning if it is there.
#[test]
fn manual() {
    let page = output(&["man"]);
    assert_eq!((status(&page), page.stderr.len()), (0, 0));
    let source = text(&page.stdout).replace("\\-", "-");
    for word in all_words() {
        assert!(source.contains(&format!("\n.SS {word}\n")), "{word}");
        for option in options(&word) {
            assert!(
                source.contains(&format!("\n.B {option}")),
                "{word} {option}"
            );
        }
    }
    let name = file("ranthelo.1", &page.stdout);
    let groff = Command::new("groff")
        .args(["-man", "-Tascii", "-ww", &name])
        .output();
    if let Ok(formatted) = groff {
        assert_eq!(text(&formatted.stderr), "");
        assert!(text(&formatted.stdout).contains("survivor"));
    }
}

/// A pipe that nobody reads: nothing is said.
#[test]
fn closed_pipes() {
    for arguments in [
        &["list", "256-tests.sheet"][..],
        &["judge", "P1.txt"],
        &["--help"],
        &["man"],
    ] {
        let mut command = command(arguments);
        command.stdout(Stdio::piped()).stderr(Stdio::piped());
        let (reader, writer) = std::io::pipe().expect("a pipe");
        drop(reader);
        // Children of other tests have it for a moment.
        sleep(Duration::from_millis(200));
        let output = command.stdout(writer).output().expect("the command ends");
        assert_eq!(
            (status(&output), text(&output.stderr)),
            (3, String::new()),
            "{arguments:?}"
        );
    }
}

/// Where no thread can be started: one line. With too little memory the program does not even begin; the first limit
/// with which it does leaves no room for a thread.
#[cfg(target_os = "linux")]
#[test]
fn no_thread() {
    let program = env!("CARGO_BIN_EXE_ranthelo");
    let output_with = |kilobytes: usize| {
        let line = format!("ulimit -v {kilobytes}; exec {program} judge P2.txt");
        let mut shell = Command::new("sh");
        shell.args(["-c", &line]).current_dir(examples());
        shell.output().expect("the shell starts")
    };
    let begun = |output: &std::process::Output| text(&output.stderr).starts_with("ranthelo: ");
    let mut outputs = (3_000..20_000).step_by(100).map(output_with);
    let output = outputs.find(begun).expect("a limit with which it begins");
    let told =
        "ranthelo: no thread can be started: Resource temporarily unavailable (os error 11)\n";
    assert_eq!(
        (output.status.code(), text(&output.stderr)),
        (Some(3), told.to_string())
    );
    assert!(output.stdout.is_empty());
}

/// A number that is out of range is told as one.
#[test]
fn numbers_out_of_range() {
    let seed = "ranthelo: generate takes 0 to 4294967295 as SEED, not 4294967296; see ranthelo help generate\n";
    gives(&["generate", "4294967296", "1", "1", "1"], 3, "", seed);
    let states =
        "ranthelo: generate takes 0 to 255 as STATES, not 256; see ranthelo help generate\n";
    gives(&["generate", "1", "256", "1", "1"], 3, "", states);
    let word =
        "ranthelo: generate takes a number as STATES, not many; see ranthelo help generate\n";
    gives(&["generate", "1", "many", "1", "1"], 3, "", word);
    let press = "ranthelo: run --press: 256 is not 0 to 255; see ranthelo help run\n";
    gives(
        &["run", "--board", "1", "--press", "256", "P1.txt"],
        3,
        "",
        press,
    );
}
