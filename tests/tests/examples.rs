//! The files of examples/: each `.hex` and each `.txt` spells its `.sheet`; those of 01 are the listed
//! sheets, and examples/course/ has those of the course.

use ranthelo_tests::listed;
use std::collections::BTreeSet;
use std::fs;
use std::path::{Path, PathBuf};

fn examples() -> PathBuf {
    PathBuf::from(env!("CARGO_MANIFEST_DIR")).join("../examples")
}

fn names(folder: &Path, extension: &str) -> BTreeSet<String> {
    let suffix = format!(".{extension}");
    fs::read_dir(folder)
        .expect("a folder of examples")
        .map(|entry| entry.unwrap().file_name().into_string().unwrap())
        .filter_map(|name| name.strip_suffix(&suffix).map(str::to_string))
        .collect()
}

#[test]
fn hexadecimal_spells_the_sheets() {
    let sheets = names(&examples(), "sheet");
    assert_eq!(names(&examples(), "hex"), sheets);
    for name in sheets {
        let bytes = fs::read(examples().join(format!("{name}.sheet"))).unwrap();
        let text = fs::read_to_string(examples().join(format!("{name}.hex"))).unwrap();
        assert_eq!(listed::hexadecimal(&text), bytes, "{name}");
    }
}

#[test]
fn texts_spell_the_sheets() {
    for folder in [examples(), examples().join("course")] {
        let sheets = names(&folder, "sheet");
        assert_eq!(names(&folder, "txt"), sheets);
        for name in sheets {
            let bytes = fs::read(folder.join(format!("{name}.sheet"))).unwrap();
            let text = fs::read(folder.join(format!("{name}.txt"))).unwrap();
            assert_eq!(ranthelo::text::assemble(&text), Ok(bytes), "{name}");
        }
    }
}

#[test]
fn the_sheets_are_the_listed_ones() {
    let listed = listed::all();
    let expected: BTreeSet<String> = listed.iter().map(|(name, _)| name.to_string()).collect();
    assert_eq!(names(&examples(), "sheet"), expected);
    for (name, bytes) in listed {
        let file = fs::read(examples().join(format!("{name}.sheet"))).unwrap();
        assert_eq!(file, bytes, "{name}");
    }
}
