//! How much stack the operations need: well below what the header and the package state. A thread that has less dies.

mod common;

use common::root;
use ranthelo::{
    Place, STACK, Station, Step, Tables, add_test, check_record, compare, first_failed, generate,
    judge, make, raw, read, run, take, tray, write,
};
use std::fs;
use std::thread::Builder;

fn in_stack(bytes: usize, work: impl FnOnce() + Send + 'static) {
    let thread = Builder::new().stack_size(bytes).spawn(work);
    thread
        .expect("a thread starts")
        .join()
        .expect("it finishes");
}

/// The sheets kept for measuring, some of which settle every open pair.
#[test]
fn judging_taking_and_making() {
    let folder = root().join("bench/machines");
    let files = fs::read_dir(folder).expect("the kept sheets");
    let sheets: Vec<Vec<u8>> = files
        .map(|file| fs::read(file.unwrap().path()).unwrap())
        .collect();
    assert!(sheets.len() > 10);
    for sheet in sheets {
        in_stack(STACK / 4 * 3, move || {
            check_record(&sheet, &[0x10]).expect("an accepted sheet");
            take(&sheet, &Place::Start).expect("an accepted sheet");
            let begun = Station::begin(&sheet).map_err(|refusal| refusal.number);
            assert!(matches!(begun, Ok(_) | Err(22)), "{begun:?}");
            let _ = judge(&sheet).expect("an accepted sheet");
            let refused = make(&sheet).err().map(|refusal| refusal.number);
            assert!(matches!(refused, None | Some(18)), "{refused:?}");
        });
    }
}

/// A sheet of 16,384 bytes and the others, with an eighth of it.
#[test]
fn other_operations() {
    let mut tests = vec!["TEST".to_string() + &" 0".repeat(256); 31];
    tests.push("TEST".to_string() + &" 0".repeat(232));
    let source = "SIZE 1 1 2\nRULE 0 0 0 0\nFAULT 0 0 1 0\n".to_string() + &tests.join("\n");
    let sheet = ranthelo::text::assemble(source.as_bytes()).expect("a text");
    assert_eq!(sheet.len(), 16_384 - 1);
    in_stack(STACK / 8, move || {
        assert!(read(&sheet).is_ok());
        assert!(run(&sheet, &[1], &[0; 100]).is_ok());
        assert!(first_failed(&sheet, &[0]).is_ok());
        assert!(tray(&sheet, 2, &[0, 1]).is_ok());
        assert!(compare(&sheet, &[0]).is_ok());
        assert!(add_test(&sheet, &[]).is_ok());
        assert!(generate(1, [16, 16, 16]).is_ok());
        let (lengths, presses) = ([256; 31], [0; 31 * 256]);
        let tables = Tables {
            size: [1, 1, 1],
            rules: &[0, 0, 0, 0],
            lengths: &lengths,
            presses: &presses,
            ..Default::default()
        };
        assert!(write(tables).is_ok());
        raw::test_span(&sheet, 31, &mut [0; 4]);
        let mut station = Station::resume(&sheet, [32, 231, 0, 0]).expect("an accepted sheet");
        let last = Step::Press {
            press: 0,
            position: 231,
        };
        assert_eq!(station.next_step(), last);
        assert_eq!(station.sound(0), Ok(None));
    });
}
