//! Pictures: DOT that a small grammar accepts; SVG with balanced elements, nothing outside the frame, no label on a
//! state or on another label; tables and Mealy machines with every transition.

use ranthelo::draw::{self, Line, Picture, Target};
use ranthelo::machine::Machine;
use ranthelo::Names;
use ranthelo_tests::enumeration;
use ranthelo_tests::generator::{self, Random, LARGE, SMALL};
use ranthelo_tests::listed;
use ranthelo_tests::pictures::{seen, Circle, Seen};
use ranthelo_tests::reference::{read, Move, Pair, Sheet};
use std::collections::BTreeMap;

/// The words of DOT: names, quoted strings, arrows and single characters.
fn tokens(dot: &str) -> Vec<String> {
    let mut tokens = Vec::new();
    let mut rest = dot.trim_start();
    while let Some(first) = rest.chars().next() {
        let end = match first {
            '"' => {
                let quoted = rest[1..].replace("\\\\", "..").replace("\\\"", "..");
                2 + quoted.find('"').expect("the string ends")
            }
            '-' => 2,
            c if c.is_alphanumeric() => rest
                .find(|c: char| !c.is_alphanumeric())
                .unwrap_or(rest.len()),
            _ => 1,
        };
        tokens.push(rest[..end].to_string());
        rest = rest[end..].trim_start();
    }
    tokens
}

fn is_value(token: &str) -> bool {
    token.starts_with('"') || token.chars().all(char::is_alphanumeric)
}

/// What of `[name=value name=value ..]` is left, if it stands here.
fn attributes(mut tokens: &[String]) -> &[String] {
    if tokens.first().is_none_or(|token| token != "[") {
        return tokens;
    }
    tokens = &tokens[1..];
    while tokens[0] != "]" {
        assert!(is_value(&tokens[0]) && tokens[1] == "=" && is_value(&tokens[2]));
        tokens = &tokens[3..];
    }
    &tokens[1..]
}

/// `digraph { statements }`, each `name = value`, `name [..]` or `name -> name [..]`; gives the number of arrows.
fn accepted(dot: &str) -> usize {
    let tokens = tokens(dot);
    assert_eq!(tokens[..2], ["digraph", "{"]);
    let (end, mut rest) = tokens[2..].split_last().expect("the graph ends");
    assert_eq!(end, "}");
    let mut arrows = 0;
    while let Some((name, more)) = rest.split_first() {
        assert!(is_value(name), "{name}");
        rest = match more.first().map(String::as_str) {
            Some("=") => &more[2..],
            Some("->") => {
                assert!(is_value(&more[1]));
                arrows += 1;
                attributes(&more[2..])
            }
            _ => attributes(more),
        };
    }
    arrows
}

/// Every element of the SVG is closed, in order, and no text breaks out of it.
fn balanced(svg: &str) {
    let mut open = Vec::new();
    for tag in svg.split('<').skip(1) {
        let (tag, text) = tag.split_once('>').expect("a tag ends");
        let plain = ["&amp;", "&lt;", "&gt;"]
            .iter()
            .fold(text.to_string(), |text, code| text.replace(code, ""));
        assert!(!plain.contains(['&', '>']) && tag.matches('"').count() % 2 == 0);
        let name = tag.split_whitespace().next().unwrap_or("");
        match name.strip_prefix('/') {
            Some(name) => assert_eq!(open.pop(), Some(name)),
            None if tag.ends_with('/') => {}
            None => open.push(name),
        }
    }
    assert!(open.is_empty());
    assert!(!svg.contains("NaN") && !svg.contains("inf"), "{svg}");
}

/// Nothing is outside the frame, no label lies on a state or on another text, and labels are drawn after the states.
fn clear(seen: &Seen, svg: &str) {
    let frame = &seen.frame;
    assert!(
        seen.circles.iter().all(|one| frame.contains(&one.area())),
        "{svg}"
    );
    assert!(
        seen.texts.iter().all(|one| frame.contains(&one.area)),
        "{svg}"
    );
    let mut lines = seen.lines.iter().flat_map(|line| line.areas());
    assert!(lines.all(|area| frame.contains(&area)), "{svg}");
    let states = seen.circles.len();
    for (i, text) in seen.texts.iter().enumerate() {
        let after = &seen.texts[i + 1..];
        let on = after.iter().find(|other| text.area.overlaps(&other.area));
        assert!(on.is_none(), "{text:?} lies on {on:?} in {svg}");
        for (state, circle) in seen.circles.iter().enumerate() {
            let own = i < states && i == state;
            assert!(
                own || !text.area.meets(circle),
                "{text:?} lies on {state} in {svg}"
            );
        }
    }
    for (circle, name) in seen.circles.iter().zip(&seen.texts) {
        assert!(circle.area().contains(&name.area), "{name:?} in {svg}");
    }
    assert!(seen
        .first_label
        .is_none_or(|label| seen.last_circle < label));
}

/// An arrow ends at its states and keeps away from all others.
fn led_around(seen: &Seen, svg: &str) {
    for line in &seen.lines {
        let ends = [line.places[0], line.places[64]];
        let touched = |circle: &&Circle| {
            let mut ends = ends.iter();
            ends.any(|&end| (circle.distance(end) - circle.radius).abs() < 0.2)
        };
        assert!(seen.circles.iter().filter(touched).count() <= 2);
        for circle in seen.circles.iter().filter(|circle| !touched(circle)) {
            let near = line
                .places
                .iter()
                .find(|&&place| circle.distance(place) < circle.radius + 5.0);
            assert_eq!(near, None, "{circle:?} {line:?} in {svg}");
        }
    }
}

/// The legend has the kinds of arrows that are drawn, and no others.
fn legend_is_true(picture: &Picture, seen: &Seen) {
    let arrows = picture.arrows();
    let some = |line: Line, start: bool| {
        let mut arrows = arrows.keys();
        arrows.any(|arrow| arrow.line == line && arrow.from.is_none() == start)
    };
    let fault = match (some(Line::Fault, false), some(Line::Fault, true)) {
        (true, true) => Some("FAULT or START"),
        (true, false) => Some("FAULT"),
        (false, true) => Some("START"),
        (false, false) => None,
    };
    let specified = some(Line::Specified, false) || some(Line::Specified, true);
    let marked = arrows.keys().filter(|arrow| arrow.marked).count();
    let kinds = [
        some(Line::Rule, false).then_some("RULE"),
        fault,
        some(Line::Unspecified, false).then_some("no RULE"),
        specified.then_some("specified instead"),
        (marked > 0).then_some("the departing sequence, with positions"),
    ];
    let kinds: Vec<&str> = kinds.into_iter().flatten().collect();
    let told = seen.texts.iter().map(|text| text.words.as_str());
    let mut told = told.skip_while(|words| !words.ends_with("from nowhere: fresh start"));
    assert!(told.next().is_some());
    assert_eq!(told.collect::<Vec<_>>(), kinds);
    assert_eq!(seen.lines.len(), arrows.len() + kinds.len());
    let with = |color: &str, width: f64| {
        let lines = seen.lines.iter();
        lines
            .filter(|line| line.color == color && line.width == width)
            .count()
    };
    assert_eq!(with("red", 3.0), marked + usize::from(marked > 0));
    let gray = arrows
        .keys()
        .filter(|arrow| arrow.line == Line::Specified)
        .count();
    assert_eq!(with("gray", 1.0), gray + usize::from(gray > 0));
}

fn labels(picture: &Picture) -> usize {
    picture.arrows().values().map(Vec::len).sum()
}

fn check(picture: &Picture) {
    assert_eq!(accepted(&draw::dot(picture)), picture.arrows().len());
    let svg = draw::svg(picture);
    balanced(&svg);
    assert_eq!(svg.matches("</title>").count(), 1);
    assert_eq!(svg.matches("</desc>").count(), 1);
    let seen = seen(&svg);
    assert_eq!(seen.circles.len(), usize::from(picture.states));
    clear(&seen, &svg);
    led_around(&seen, &svg);
    legend_is_true(picture, &seen);
}

/// The edges of a Mealy machine in DOT, and the state that it starts in.
fn edges(mealy: &str) -> (BTreeMap<Pair, Move>, u8) {
    accepted(&mealy.replace(';', "").replace("__start0", "start"));
    let state = |name: &str| name.strip_prefix('s').expect("a state").parse().unwrap();
    let (mut edges, mut start) = (BTreeMap::new(), None);
    for line in mealy.lines().filter_map(|line| line.strip_suffix(';')) {
        let Some((from, to)) = line.trim().split_once(" -> ") else {
            continue;
        };
        if from == "__start0" {
            start = Some(state(to));
            continue;
        }
        let (to, label) = to.split_once(" [label=\"").expect("a label");
        let (press, sound) = label.trim_end_matches("\"]").split_once('/').expect("both");
        let (press, sound) = (press.parse().unwrap(), sound.parse().unwrap());
        let before = edges.insert((state(from), press), (sound, state(to)));
        assert_eq!(before, None, "{mealy}");
    }
    (edges, start.expect("a start"))
}

/// The entries of a table by state and press, each with its mark.
fn entries(table: &str) -> BTreeMap<Pair, Vec<String>> {
    let mut lines = table.lines().skip_while(|line| !line.starts_with("state "));
    let head = lines.next().expect("a head");
    let starts: Vec<usize> = head.match_indices("press").map(|(at, _)| at).collect();
    let (mut entries, mut state): (BTreeMap<Pair, Vec<String>>, u8) = Default::default();
    for line in lines.take_while(|line| !line.is_empty()) {
        if let Some(name) = line.split(' ').next().filter(|name| !name.is_empty()) {
            state = name.parse().expect("a state");
        }
        for (press, &start) in starts.iter().enumerate() {
            let end = starts
                .get(press + 1)
                .map_or(line.len(), |&end| end.min(line.len()));
            let cell = line.get(start..end).unwrap_or("").trim();
            let before = line.get(..start).unwrap_or(" ");
            assert!(before.ends_with("   ") || cell.is_empty(), "{table}");
            if !cell.is_empty() {
                entries
                    .entry((state, press as u8))
                    .or_default()
                    .push(cell.to_string());
            }
        }
    }
    entries
}

fn entry(mark: &str, to: Move) -> String {
    format!("{mark}{} -> {}", to.0, to.1)
}

/// What a table of a sheet has at a pair.
fn cell(sheet: &Sheet, pair: Pair) -> Vec<String> {
    let Some(&rule) = sheet.rules.get(&pair) else {
        let lone = (sheet.states, sheet.sounds) == (1, 1);
        return match sheet.quiet || lone {
            true => vec![entry("? ", (0, pair.0))],
            false => vec!["?".to_string()],
        };
    };
    let faults = sheet.faults_at(pair).map(|fault| entry("! ", fault));
    [entry("", rule)].into_iter().chain(faults).collect()
}

fn tabled(sheet: &Sheet, open: &Picture) {
    let table = draw::table(open);
    let expected = sheet.pairs().map(|pair| (pair, cell(sheet, pair)));
    assert_eq!(entries(&table), expected.collect(), "{table}");
    let starts = sheet
        .starts
        .iter()
        .map(|state| format!(", ! state {state}"));
    let starts = format!("fresh start: state 0{}\n", starts.collect::<String>());
    assert!(table.starts_with(&starts), "{table}");
}

/// A board's picture and table against the library's runs: a press at a state gives what stands there.
fn board_is_shown(sheet: &Sheet, board: &[u8], picture: &Picture) {
    let bytes = sheet.encode();
    let machine = Machine::of(&bytes).expect("an accepted sheet");
    let taken = machine.with(board).expect("a board");
    let (edges, start) = edges(&draw::mealy(picture));
    assert_eq!(start, taken.wake().to.next);
    let table = entries(&draw::table(picture));
    for pair in sheet.pairs() {
        let to = taken.step(pair.0, pair.1).to;
        let to = (to.sound, to.next);
        assert_eq!(edges.get(&pair), Some(&to));
        let cell = &table[&pair];
        let stands = |mark: &str| cell[0].split(" at ").next() == Some(&entry(mark, to));
        match sheet.rules.get(&pair) {
            None => assert!(stands("? ") && cell.len() == 1),
            Some(&rule) if rule == to => assert!(stands("") && cell.len() == 1),
            Some(&rule) => assert!(stands("! ") && cell[1..] == [entry("= ", rule)]),
        }
    }
}

fn drawn(random: &mut Random, sheet: &Sheet) {
    let bytes = sheet.encode();
    let machine = Machine::of(&bytes).expect("an accepted sheet");
    let names = Names::default();
    let transitions = sheet.rules.len() + sheet.faults.len();
    let plain = draw::machine(&machine, &names, false);
    assert_eq!(labels(&plain), transitions);
    assert_eq!(edges(&draw::mealy(&plain)), (sheet.rules.clone(), 0));
    check(&plain);
    let open = draw::machine(&machine, &names, true);
    let free = sheet.pairs().count() - sheet.rules.len();
    assert_eq!(labels(&open), transitions + free);
    check(&open);
    tabled(sheet, &open);
    let board = generator::board(random, &enumeration::Machine::new(sheet).counts());
    let picture = draw::board(&bytes, &board, &names, true).expect("a board of the sheet");
    let arrows = picture.transitions.iter();
    let faults = arrows.filter(|one| one.line == Line::Fault).count();
    assert_eq!(labels(&picture), sheet.pairs().count() + faults);
    board_is_shown(sheet, &board, &picture);
    check(&picture);
    check(&draw::board(&bytes, &board, &names, false).expect("a board of the sheet"));
}

#[test]
fn listed_sheets() {
    let mut random = Random::new(0x5EED_0027);
    for (_, bytes) in listed::all() {
        if let Ok(reading) = read(&bytes) {
            drawn(&mut random, &reading.sheet);
        }
    }
}

#[test]
fn random_sheets() {
    let mut random = Random::new(0x5EED_0028);
    for i in 0..3_000 {
        let shape = if i % 100 == 0 { LARGE } else { SMALL };
        let sheet = generator::sheet(&mut random, &shape);
        drawn(&mut random, &sheet);
    }
}

#[test]
fn refused_boards_are_not_drawn() {
    let names = Names::default();
    let refusal = draw::board(&listed::p4(), &[4, 0], &names, false).unwrap_err();
    assert_eq!((refusal.number, refusal.place), (14, 0));
}

/// Machines with a RULE at every pair and many FAULTs, as large as sheets can be.
#[test]
fn generated_sheets() {
    let mut random = Random::new(0x5EED_0029);
    let sizes = [
        [1, 1],
        [1, 16],
        [3, 2],
        [4, 12],
        [8, 3],
        [12, 2],
        [16, 1],
        [16, 2],
        [16, 16],
    ];
    for [states, presses] in sizes {
        for seed in 0..3 {
            let bytes = ranthelo::generate(seed, [states, presses, 4]).expect("a size");
            drawn(&mut random, &read(&bytes).expect("an accepted sheet").sheet);
        }
    }
}

/// Long names, and names with characters that mean something in SVG and DOT.
#[test]
fn named_sheets() {
    let mut random = Random::new(0x5EED_002A);
    let words = [
        "a",
        "locked",
        "two words",
        "<&>",
        "say \"so\"",
        "back\\slash",
        "Bolzenschloss",
    ];
    let mut list = |number: u8| -> Vec<String> {
        let number = random.below(usize::from(number) + 1);
        (0..number)
            .map(|_| random.pick(&words).to_string())
            .collect()
    };
    let mut sheets = Random::new(0x5EED_002B);
    for _ in 0..300 {
        let sheet = generator::sheet(&mut sheets, &SMALL);
        let names = Names {
            states: list(sheet.states),
            presses: list(sheet.presses),
            sounds: list(sheet.sounds),
        };
        let bytes = sheet.encode();
        let machine = Machine::of(&bytes).expect("an accepted sheet");
        let picture = draw::machine(&machine, &names, true);
        check(&picture);
        accepted(
            &draw::mealy(&picture)
                .replace(';', "")
                .replace("__start0", "start"),
        );
        let board = generator::board(&mut sheets, &enumeration::Machine::new(&sheet).counts());
        check(&draw::board(&bytes, &board, &names, true).expect("a board of the sheet"));
    }
}

/// What is specified stands beside a board's fault, and its departing sequence has its positions.
#[test]
fn faults_stand_beside_rules() {
    let picture = draw::board(&listed::p1(), &[1], &Names::default(), false).unwrap();
    assert_eq!(picture.title, "board 1 departs on 0 1 0");
    let at = |line: Line, marked: bool| {
        let arrows = picture.arrows().into_iter();
        let arrows = arrows.filter(|(arrow, _)| arrow.line == line && arrow.marked == marked);
        arrows
            .map(|(arrow, labels)| (arrow.to, labels.join(" ")))
            .collect::<Vec<_>>()
    };
    assert_eq!(
        at(Line::Specified, false),
        [(Target::State(0), "1/1".to_string())]
    );
    assert_eq!(
        at(Line::Fault, true),
        [(Target::State(1), "1/1 at 1".to_string())]
    );
}
