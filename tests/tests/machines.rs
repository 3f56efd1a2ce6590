//! Names, fault models and machines from elsewhere, there and back on random machines.

use ranthelo::machine::Machine;
use ranthelo::text::{assemble, disassemble_named, lines_of, sorted, Text};
use ranthelo::{draw, faults, import, Named, Names};
use ranthelo_tests::generator::{self, Random, SMALL};
use ranthelo_tests::reference::{Sheet, FAULT};
use std::collections::BTreeSet;

const MACHINES: usize = 10_000;

/// Words that may be names, some of them numbers.
const WORDS: [&str; 24] = [
    "locked",
    "half",
    "open",
    "knock",
    "handle",
    "click",
    "bolt",
    "a",
    "b",
    "A",
    "B",
    "0",
    "1",
    "2",
    "15",
    "00",
    "x1",
    "\u{e9}",
    "\u{df}\u{df}",
    "RULE",
    "SIZE",
    "\"",
    "\\",
    "a.b",
];

/// As many different names as there are things; or none.
fn names(random: &mut Random, sheet: &Sheet) -> Names {
    let mut some = |number: u8| -> Vec<String> {
        let mut words = WORDS.to_vec();
        random.shuffle(&mut words);
        let number = if random.chance(20) {
            0
        } else {
            usize::from(number)
        };
        words
            .iter()
            .take(number)
            .map(|word| word.to_string())
            .collect()
    };
    let (states, presses, sounds) = (some(sheet.states), some(sheet.presses), some(sheet.sounds));
    Names {
        states,
        presses,
        sounds,
    }
}

fn sheet(random: &mut Random) -> Sheet {
    generator::sheet(random, &SMALL)
}

/// A sheet with a RULE: without one there is no machine to write down elsewhere.
fn with_rules(random: &mut Random) -> Sheet {
    loop {
        let sheet = sheet(random);
        if !sheet.rules.is_empty() {
            return sheet;
        }
    }
}

#[test]
fn named_texts() {
    let mut random = Random::new(0x5EED_0042);
    for _ in 0..MACHINES {
        let sheet = sheet(&mut random);
        let (bytes, names) = (sheet.encode(), names(&mut random, &sheet));
        let text = disassemble_named(&bytes, &names);
        let read = Text::read(text.as_bytes()).unwrap_or_else(|wrong| panic!("{wrong}: {text}"));
        assert_eq!(read.bytes(), bytes, "{text}");
        assert_eq!(read.names(), &names, "{text}");
    }
}

/// Lines in any order are put in order again.
#[test]
fn shuffled_rows() {
    let mut random = Random::new(0x5EED_0043);
    for _ in 0..MACHINES {
        let sheet = sheet(&mut random);
        let (bytes, names) = (sheet.encode(), names(&mut random, &sheet));
        let text = disassemble_named(&bytes, &names);
        let (tests, mut rows): (Vec<&str>, Vec<&str>) =
            text.lines().partition(|line| line.starts_with("TEST"));
        random.shuffle(&mut rows);
        let at = random.between(0, rows.len());
        rows.splice(at..at, tests);
        let mixed = rows.join("\n");
        let read = Text::read(mixed.as_bytes()).unwrap_or_else(|wrong| panic!("{wrong}: {mixed}"));
        assert_eq!(sorted(&read.bytes()), bytes, "{mixed}");
        assert_eq!(read.sorted().bytes(), bytes, "{mixed}");
    }
}

/// The FAULTs of a model by its meaning.
fn modelled(sheet: &Sheet, model: faults::Model) -> BTreeSet<[u8; 4]> {
    let mut rows = BTreeSet::new();
    for (&(s, x), &(sound, next)) in &sheet.rules {
        for o in 0..sheet.sounds {
            for t in 0..sheet.states {
                let (output, transfer) = (o != sound, t != next);
                let wanted = match (output, transfer) {
                    (false, false) => false,
                    (true, false) => model.output,
                    (false, true) => model.transfer,
                    (true, true) => model.both,
                };
                if wanted {
                    rows.insert([s, x, o, t]);
                }
            }
        }
    }
    rows
}

#[test]
fn fault_models() {
    let mut random = Random::new(0x5EED_0044);
    for i in 0..MACHINES {
        let mut sheet = sheet(&mut random);
        let (bytes, names) = (sheet.encode(), names(&mut random, &sheet));
        let model = faults::Model {
            output: i % 2 == 0,
            transfer: i % 3 == 0,
            both: i % 5 == 0,
        };
        let rows = faults::rows(&Machine::of(&bytes).unwrap(), model);
        assert!(rows.is_sorted());
        let own: BTreeSet<[u8; 4]> = sheet
            .faults
            .iter()
            .map(|&((s, x), (o, t))| [s, x, o, t])
            .collect();
        let expected: BTreeSet<[u8; 4]> =
            modelled(&sheet, model).difference(&own).copied().collect();
        assert_eq!(rows.iter().copied().collect::<BTreeSet<_>>(), expected);
        // Their lines at the end of the text, in order, are the sheet with these FAULTs.
        let more: Vec<u8> = rows
            .iter()
            .flat_map(|row| [&[FAULT], &row[..]].concat())
            .collect();
        let text = disassemble_named(&bytes, &names) + &lines_of(&more, &names);
        sheet
            .faults
            .extend(rows.iter().map(|&[s, x, o, t]| ((s, x), (o, t))));
        let joined = Text::read(text.as_bytes()).unwrap().sorted().bytes();
        assert_eq!(joined, sheet.encode(), "{text}");
    }
}

/// A transition in the words of names: state, press, sound, next state.
type Row = [String; 4];

fn rows_of(sheet: &Sheet, names: &Names, state: fn(&Names, u8) -> String) -> BTreeSet<Row> {
    let row = |(&(s, x), &(o, t))| {
        [
            state(names, s),
            names.press(x),
            names.sound(o),
            state(names, t),
        ]
    };
    sheet.rules.iter().map(row).collect()
}

/// What an imported sheet says, in its names.
fn imported(source: &str) -> (Sheet, Names) {
    let imported =
        import::machine(source.as_bytes()).unwrap_or_else(|wrong| panic!("{wrong}: {source}"));
    let reading = ranthelo_tests::reference::read(&imported.sheet);
    let sheet = reading
        .unwrap_or_else(|refusal| panic!("{refusal:?}: {source}"))
        .sheet;
    (sheet, imported.names)
}

/// A state's name as `draw --mealy` has it.
fn drawn_state(names: &Names, state: u8) -> String {
    match names.state(state) {
        number if number == state.to_string() => format!("s{state}"),
        name => name,
    }
}

fn state(names: &Names, state: u8) -> String {
    names.state(state)
}

/// What `draw --mealy` writes is taken back, with all names.
#[test]
fn drawn_machines() {
    let mut random = Random::new(0x5EED_0045);
    for _ in 0..MACHINES {
        let sheet = with_rules(&mut random);
        let (bytes, names) = (sheet.encode(), names(&mut random, &sheet));
        let drawn = draw::mealy(&draw::machine(&Machine::of(&bytes).unwrap(), &names, false));
        let (back, called) = imported(&drawn);
        assert_eq!(
            rows_of(&back, &called, state),
            rows_of(&sheet, &names, drawn_state),
            "{drawn}"
        );
        assert_eq!(state(&called, 0), drawn_state(&names, 0), "{drawn}");
    }
}

/// Machines in DOT in any order of lines, and with dashed edges for FAULTs.
#[test]
fn machines_in_dot() {
    let mut random = Random::new(0x5EED_0046);
    for _ in 0..MACHINES {
        let sheet = with_rules(&mut random);
        let edge = |pair: (u8, u8), to: (u8, u8), style: &str| {
            format!(
                "q{} -> q{} [label=\"in{} / out{}\"{style}];",
                pair.0, to.1, pair.1, to.0
            )
        };
        let rules = sheet.rules.iter().map(|(&pair, &to)| edge(pair, to, ""));
        let faults = sheet
            .faults
            .iter()
            .map(|&(pair, to)| edge(pair, to, ", style=dashed"));
        let wakings = sheet
            .starts
            .iter()
            .map(|state| format!("begin -> q{state} [style=dashed]"));
        let mut lines: Vec<String> = rules.chain(faults).chain(wakings).collect();
        lines.push("begin -> q0".to_string());
        random.shuffle(&mut lines);
        let source = format!("strict digraph \"a b\" {{\n{}\n}}\n", lines.join("\n"));
        let (back, called) = imported(&source);
        let expected = Names {
            states: (0..16).map(|i| format!("q{i}")).collect(),
            presses: (0..16).map(|i| format!("in{i}")).collect(),
            sounds: (0..16).map(|i| format!("out{i}")).collect(),
        };
        assert_eq!(
            rows_of(&back, &called, state),
            rows_of(&sheet, &expected, state),
            "{source}"
        );
        let faults_of = |sheet: &Sheet, names: &Names| -> BTreeSet<Row> {
            let row = |&((s, x), (o, t)): &((u8, u8), (u8, u8))| {
                [
                    names.state(s),
                    names.press(x),
                    names.sound(o),
                    names.state(t),
                ]
            };
            sheet.faults.iter().map(row).collect()
        };
        assert_eq!(
            faults_of(&back, &called),
            faults_of(&sheet, &expected),
            "{source}"
        );
        let starts = |sheet: &Sheet, names: &Names| -> BTreeSet<String> {
            sheet
                .starts
                .iter()
                .map(|&state| names.state(state))
                .collect()
        };
        assert_eq!(
            starts(&back, &called),
            starts(&sheet, &expected),
            "{source}"
        );
        assert_eq!(called.state(0), "q0");
    }
}

/// Machines in KISS2, their inputs as bits.
#[test]
fn machines_in_kiss() {
    let mut random = Random::new(0x5EED_0047);
    for _ in 0..MACHINES {
        let sheet = with_rules(&mut random);
        let width = (1..)
            .find(|width| 1 << width >= sheet.presses)
            .expect("a width");
        let bits = |number: u8| format!("{number:0width$b}");
        let rule =
            |(&(s, x), &(o, t)): (&(u8, u8), &(u8, u8))| format!("{} st{s} st{t} o{o}", bits(x));
        let mut lines: Vec<String> = sheet.rules.iter().map(rule).collect();
        random.shuffle(&mut lines);
        let source = format!(".i {width}\n.o 1\n.r st0\n{}\n.e\n", lines.join("\n"));
        let (back, called) = imported(&source);
        let expected = Names {
            states: (0..16).map(|i| format!("st{i}")).collect(),
            presses: (0..16).map(bits).collect(),
            sounds: (0..16).map(|i| format!("o{i}")).collect(),
        };
        assert_eq!(
            rows_of(&back, &called, state),
            rows_of(&sheet, &expected, state),
            "{source}"
        );
        assert_eq!(called.called(Named::State, 0), "st0");
    }
}

/// Texts of any kind end in a machine or in mistakes with lines that are there.
#[test]
fn damaged_imports() {
    let mut random = Random::new(0x5EED_0048);
    let dot = "digraph {\n__start0 -> a\na -> b [label=\"x/0\"]\nb -> a [label=\"x/1\" style=dashed]\n}\n";
    let kiss = ".i 1\n.o 1\n.r a\n- a b 1\n0 b a 0\n.e\n";
    for i in 0..20_000 {
        let mut text = if i % 2 == 0 { dot } else { kiss }.as_bytes().to_vec();
        for _ in 0..random.between(1, 4) {
            let place = random.below(text.len());
            text[place] = random.pick(b"\"{}[]->=;/\\<\n#. a0\xff");
        }
        if let Err(mistakes) = import::machine(&text) {
            let lines = text.split(|&byte| byte == b'\n').count();
            assert!(
                mistakes
                    .iter()
                    .all(|mistake| (1..=lines).contains(&mistake.line)),
                "{mistakes}"
            );
        }
    }
}

/// A text with more lines is its own lines and these.
#[test]
fn joined_texts() {
    let mut random = Random::new(0x5EED_0049);
    for _ in 0..MACHINES {
        let mut sheet = sheet(&mut random);
        let (whole, names) = (sheet.encode(), names(&mut random, &sheet));
        let own = sheet.tests.len();
        let left: Vec<Vec<u8>> = sheet.tests.split_off(random.between(0, own));
        let some: Vec<_> = sheet
            .faults
            .iter()
            .copied()
            .filter(|_| random.chance(50))
            .collect();
        let mut more = Vec::new();
        for fault @ ((s, x), (o, t)) in some {
            sheet.faults.remove(&fault);
            more.extend([FAULT, s, x, o, t]);
        }
        for test in left {
            more.push(4);
            more.extend(test.iter().flat_map(|&x| [5, x]));
        }
        let source = disassemble_named(&sheet.encode(), &names).replace('\n', " # kept\n");
        let text = Text::read(source.as_bytes()).unwrap();
        let joined = text.joined(source.as_bytes(), &more, &whole);
        assert_eq!(
            assemble(joined.as_bytes()).as_deref(),
            Ok(&whole[..]),
            "{joined}"
        );
        assert!(
            source.lines().all(|line| joined.contains(line)),
            "{source}\n{joined}"
        );
    }
}
