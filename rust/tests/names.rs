//! Names of states, presses and sounds, in texts and in answers.

mod common;

use common::{file, gives, output, output_on, status, text};

const LOCK: &str = "\
# a lock
SIZE 3 2 2
STATES locked half open
PRESSES knock handle
SOUNDS click bolt
RULE locked knock click half
RULE locked handle click locked
RULE half knock click half
RULE half handle bolt open
RULE open knock click locked
RULE open handle 0 0   # any press locks again
FAULT half knock click locked
FAULT open handle click open
TEST knock knock handle knock # the list
";

/// The lock's text in a file of one test's own: tests run at once.
fn lock(test: &str) -> String {
    file(&format!("named-lock-{test}.txt"), LOCK.as_bytes())
}

#[test]
fn names_stand_for_numbers() {
    let plain = "SIZE 3 2 2\nRULE 0 0 0 1\nRULE 0 1 0 0\nRULE 1 0 0 1\nRULE 1 1 1 2\nRULE 2 0 0 0\nRULE 2 1 0 0\n\
                 FAULT 1 0 0 0\nFAULT 2 1 0 2\nTEST 0 0 1 0\n";
    let named = ranthelo::text::assemble(LOCK.as_bytes());
    assert_eq!(named, ranthelo::text::assemble(plain.as_bytes()));
}

#[test]
fn lines_have_numbers_by_default() {
    let lock = lock("lines");
    gives(
        &["judge", &lock],
        1,
        "survivor\nboard 0 1\npress 0 1 1 0 1\n",
        "",
    );
    let named = "survivor\nboard 0 1\npress knock handle handle knock handle\n";
    gives(&["judge", "--names", &lock], 1, named, "");
    gives(
        &["run", "--board", "0,1", "--press", "knock,handle 1", &lock],
        0,
        "sound 0 1 0\nused 1\n",
        "",
    );
    gives(
        &[
            "run",
            "--names",
            "--board",
            "0,1",
            "--press",
            "knock,handle",
            &lock,
        ],
        0,
        "sound click bolt\nused\n",
        "",
    );
    gives(
        &["read", "--names", "--test", "0", &lock],
        0,
        "at 45, 8 bytes\npress knock knock handle knock\n",
        "",
    );
    gives(
        &["compare", "--names", "--board", "0,1", &lock],
        1,
        "departs\npress knock handle handle knock handle\n",
        "",
    );
    gives(
        &["run", "--board", "0,1", "--press", "hinge", &lock],
        3,
        "",
        "ranthelo: run --press: hinge is no number and no name of a press; see ranthelo help run\n",
    );
}

#[test]
fn answers_in_words_have_names() {
    let lock = lock("words");
    let explained = text(&output(&["judge", "--explain", &lock]).stdout);
    assert!(
        explained.starts_with("survivor\nboard 0 1\npress 0 1 1 0 1\n"),
        "{explained}"
    );
    assert!(
        explained.contains("open pair 1, state open, press handle: choice 1"),
        "{explained}"
    );
    assert!(
        explained.contains("open -> locked, sound click"),
        "{explained}"
    );
    let listed = text(&output(&["list", &lock]).stdout);
    assert!(
        listed.contains(
            "RULE 1 1 1 2        state half, press handle: sound bolt, next state open\n"
        )
    );
    assert!(
        listed.contains("PRESS 1             half -> open, sound bolt\n"),
        "{listed}"
    );
    assert!(
        listed.contains("open pair 0: state half, press knock, 2 choices\n"),
        "{listed}"
    );
    let drawn = text(&output(&["draw", "--svg", &lock]).stdout);
    for name in ["locked", "half", "open", "handle/bolt"] {
        assert!(drawn.contains(name), "{name}: {drawn}");
    }
    let refused = output(&["compare", "--board", "2,0", &lock]);
    let told = format!(
        "ranthelo: {lock}: refused 14 at 0: choice 2 at open pair 0 (state half, press knock), which has 2\n"
    );
    assert_eq!((status(&refused), text(&refused.stderr)), (2, told));
}

/// Why two sheets are not merged, and why a list does for no station: in names; so is a lock's sound if that is asked
/// for.
#[test]
fn reasons_have_names() {
    let lock = lock("reasons");
    let other = LOCK.replace("RULE open handle 0 0", "RULE open handle 0 1");
    assert_ne!(other, LOCK);
    let other = file("named-other.txt", other.as_bytes());
    let told = format!(
        "ranthelo: {lock}: refused 21 at 0: the RULEs differ at state open, press handle: sound click, next state \
         locked and sound click, next state half\n"
    );
    gives(&["merge", &lock, &other], 2, "", &told);
    let told = format!(
        "ranthelo: {lock}: refused 22 at 0: the list is not complete: board 0 1 passes it and departs on knock handle \
         handle knock handle\n"
    );
    gives(&["station", &lock], 2, "", &told);
    let sounds = |more: &[&str]| {
        let arguments = [&["lock", "--board", "0,1", &lock], more].concat();
        text(&output_on(&arguments, b"pulse\npress knock\npress handle\n").stdout)
    };
    assert_eq!(sounds(&[]), "next\nnext\nsound 0\nsound 1\n");
    assert_eq!(
        sounds(&["--names"]),
        "next\nnext\nsound click\nsound bolt\n"
    );
}

/// The text form of a named sheet has its names, and spells it again.
#[test]
fn text_form_keeps_names() {
    let spelled = output(&["list", "--text", &lock("text")]);
    let spelled = text(&spelled.stdout);
    assert!(spelled.starts_with(
        "SIZE 3 2 2\nSTATES locked half open\nPRESSES knock handle\nSOUNDS click bolt\n"
    ));
    assert!(
        spelled.contains("\nRULE open handle click locked\n"),
        "{spelled}"
    );
    assert_eq!(
        ranthelo::text::assemble(spelled.as_bytes()),
        ranthelo::text::assemble(LOCK.as_bytes())
    );
}

/// A name may be a number; then it is that name.
#[test]
fn names_that_are_numbers() {
    let swapped = ranthelo::text::assemble(b"SIZE 1 2 1\nPRESSES 1 0\nTEST 1 0").unwrap();
    assert_eq!(
        swapped,
        ranthelo::text::assemble(b"SIZE 1 2 1\nTEST 0 1").unwrap()
    );
    let words = ranthelo::text::Text::read(b"SIZE 1 2 1\nPRESSES 1 0\nTEST 1 0").unwrap();
    let spelled = ranthelo::text::disassemble_named(&words.bytes(), words.names());
    assert_eq!(spelled, "SIZE 1 2 1\nPRESSES 1 0\nTEST 1 0\n");
}

#[test]
fn mistakes_of_names() {
    for (source, expected) in [
        (
            "SIZE 2 1 1\nSTATES a",
            "line 2: STATES has 1 names, and SIZE 2",
        ),
        ("SIZE 2 1 1\nSTATES a a", "line 2: STATES has a twice"),
        (
            "SIZE 1 1 1\nSOUNDS a\nSOUNDS b",
            "line 3: SOUNDS stands twice, first in line 2",
        ),
        (
            "SIZE 1 1 1\nPRESSES a\nTEST b",
            "line 3: b is no number and no name of a press",
        ),
        ("SIZE 1 1 1\nTEST b", "line 2: b is no number"),
        ("SIZE 1 one 1", "line 1: one is no number"),
    ] {
        let mistakes = ranthelo::text::assemble(source.as_bytes()).expect_err(source);
        assert_eq!(mistakes.to_string(), expected, "{source}");
    }
}

/// All mistakes are told, each with its line; names may be given after they are used.
#[test]
fn all_mistakes_at_once() {
    let source =
        "SIZE 2 1\nRULES 0 0 0 0\nRULE 0 0 0 300\n\nTEST knock \u{c}\nPRESSES knock\nHEX 1\n";
    let wrong = file("mistakes.txt", source.as_bytes());
    let told = format!(
        "ranthelo: {wrong}: line 1: SIZE takes 3 operands (states, presses, sounds), not 2\n\
         ranthelo: {wrong}: line 2: RULES is no command\n\
         ranthelo: {wrong}: line 3: 300 is not 0 to 255\n\
         ranthelo: {wrong}: line 5: byte 0c, a form feed, stands in no text\n\
         ranthelo: {wrong}: line 7: 1 is not two hexadecimal digits\n"
    );
    gives(&["judge", &wrong], 3, "", &told);
    let many = file("many-mistakes.txt", "X\n".repeat(30).as_bytes());
    let told = text(&output(&["read", &many]).stderr);
    assert_eq!(told.lines().count(), 21);
    assert!(told.ends_with(": 10 more mistakes\n"), "{told}");
}

/// A byte that stands in no text is told with its line, and the bytes of a damaged sheet are no text.
#[test]
fn control_bytes() {
    for (byte, what) in [
        (0, "a null"),
        (0x1B, "an escape"),
        (0x7F, "a delete"),
        (1, "a control byte"),
    ] {
        let source = [&b"SIZE 1 1 1\n# a comment"[..], &[byte], b"\nTEST\n"].concat();
        let wrong = file(&format!("control-{byte}.txt"), &source);
        let told =
            format!("ranthelo: {wrong}: line 2: byte {byte:02x}, {what}, stands in no text\n");
        gives(&["judge", &wrong], 3, "", &told);
    }
    let wide: Vec<u8> = "\u{FEFF}SIZE 1 1 1\n"
        .encode_utf16()
        .flat_map(u16::to_le_bytes)
        .collect();
    let wide = file("utf-16.txt", &wide);
    let told = format!("ranthelo: {wide}: line 1: the text is in UTF-16; save it as UTF-8\n");
    gives(&["judge", &wide], 3, "", &told);
    let damaged = file("damaged.sheet", &[b'A', 2, 2, 2, 6]);
    let told = format!("ranthelo: {damaged}: refused 3 at 0: 41 is no command byte\n");
    gives(&["read", &damaged], 2, "", &told);
}
