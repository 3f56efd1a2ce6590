//! The text form of sheets: to bytes and back.

use ranthelo::records::{self, Record, PULSE, SEEN};
use ranthelo::text::{assemble, bytes_of, disassemble, is_text, line_at};
use ranthelo::Names;
use ranthelo_tests::generator::{self, Random, LARGE, SMALL};
use ranthelo_tests::listed::{self, spelled};
use ranthelo_tests::reference::read;

/// Text and bytes are each other's, and the text is taken for a text; bytes that reading accepts are not.
fn there_and_back(bytes: &[u8]) {
    let text = disassemble(bytes);
    assert!(is_text(text.as_bytes()), "{}", spelled(bytes));
    assert!(!is_text(bytes) || read(bytes).is_err(), "{text}");
    assert_eq!(assemble(text.as_bytes()).as_deref(), Ok(bytes), "{text}");
    assert_eq!(bytes_of(text.into_bytes()).as_deref(), Ok(bytes));
}

#[test]
fn listed_sheets() {
    for (_, bytes) in listed::all() {
        there_and_back(&bytes);
        assert!(!is_text(&bytes), "{}", spelled(&bytes));
    }
}

#[test]
fn random_sheets() {
    let mut random = Random::new(0x5EED_0020);
    for i in 0..10_000 {
        let shape = if i % 20 == 0 { LARGE } else { SMALL };
        let bytes = generator::sheet(&mut random, &shape).encode();
        there_and_back(&bytes);
        let text = disassemble(&bytes);
        assert!(!text.contains("HEX") && !text.contains("END"), "{text}");
    }
}

#[test]
fn random_and_damaged_bytes() {
    let mut random = Random::new(0x5EED_0021);
    for _ in 0..30_000 {
        there_and_back(&generator::any_bytes(&mut random));
        let noise: Vec<u8> = (0..random.below(30))
            .map(|_| random.below(256) as u8)
            .collect();
        there_and_back(&noise);
    }
}

#[test]
fn short_strings_of_bytes() {
    there_and_back(&[]);
    for first in 0..=255 {
        there_and_back(&[first]);
        for second in 0..=255 {
            there_and_back(&[first, second]);
            there_and_back(&[first, second, 6]);
        }
    }
}

/// Comments, blank lines, either case and any blanks change nothing; lines are counted as an editor does.
#[test]
fn layout_is_free() {
    let plain = assemble(b"SIZE 2 1 1\nRULE 0 0 0 1\nTEST 0").unwrap();
    let free = "\u{FEFF}# caf\u{e9}\r\n\r\n\tsize  2 1\t1 # sizes\r\n  Rule 0 00 0 001\r\nTest 0#press\r\n";
    assert_eq!(assemble(free.as_bytes()).as_deref(), Ok(&plain[..]));
    let lines: Vec<_> = (0..plain.len())
        .map(|place| line_at(free.as_bytes(), place))
        .collect();
    let expected = [vec![3; 4], vec![4; 5], vec![5; 3]].concat();
    let (end, before) = lines.split_last().expect("bytes");
    assert_eq!(before, expected.into_iter().map(Some).collect::<Vec<_>>());
    assert_eq!(*end, None);
}

/// Texts of any kind end in bytes or in a mistake with a line that is there.
#[test]
fn damaged_texts() {
    let mut random = Random::new(0x5EED_0022);
    for _ in 0..20_000 {
        let bytes = generator::sheet(&mut random, &SMALL).encode();
        let mut text = disassemble(&bytes).into_bytes();
        for _ in 0..random.between(1, 3) {
            let place = random.below(text.len());
            text[place] = random.pick(b"0 1\n#xR-\xff");
        }
        if let Err(mistakes) = assemble(&text) {
            let lines = text.split(|&byte| byte == b'\n').count();
            assert!(!mistakes.is_empty());
            for mistake in mistakes.iter() {
                assert!((1..=lines).contains(&mistake.line), "{mistake}");
            }
        }
    }
}

/// The text form of records: to bytes and back.
#[test]
fn records() {
    let mut random = Random::new(0x5EED_0050);
    for i in 0..20_000 {
        let bytes: Vec<u8> = (0..random.below(20))
            .flat_map(|_| match random.below(if i % 2 == 0 { 2 } else { 3 }) {
                0 => vec![PULSE],
                1 => vec![SEEN, random.below(256) as u8, random.below(256) as u8],
                _ => vec![random.below(256) as u8],
            })
            .collect();
        let text = records::spelled(&bytes, &Names::default());
        let record = Record::read(text.as_bytes(), &Names::default());
        assert_eq!(
            record.map(|record| record.bytes),
            Ok(bytes.clone()),
            "{text}"
        );
        if i % 2 == 0 {
            let same = Record::read(&bytes, &Names::default());
            assert_eq!(same.map(|record| record.bytes), Ok(bytes), "{text}");
        }
    }
}
