//! A station's state in a file: its four numbers, and the text of its sheet.

use super::failure::Failure;
use ranthelo::text;
use std::ffi::{OsStr, OsString};
use std::{fs, io};

/// The sheet and the state in a file; none if there is no such file.
pub fn load(path: &OsStr) -> Result<Option<(Vec<u8>, [usize; 4])>, Failure> {
    let name = path.to_string_lossy();
    let content = match fs::read_to_string(path) {
        Err(error) if error.kind() == io::ErrorKind::NotFound => return Ok(None),
        other => other.map_err(|error| Failure::unusable(&name, error))?,
    };
    let kept = parsed(&content)
        .ok_or_else(|| Failure::unusable(&name, "this is no state of a station"))?;
    Ok(Some(kept))
}

fn parsed(content: &str) -> Option<(Vec<u8>, [usize; 4])> {
    let (first, rest) = content.split_once('\n')?;
    let numbers = first.strip_prefix("state ")?.split(' ').map(str::parse);
    let numbers: Vec<usize> = numbers.collect::<Result<_, _>>().ok()?;
    let sheet = text::assemble(rest.as_bytes()).ok()?;
    Some((sheet, numbers.try_into().ok()?))
}

/// Keeps them: whoever stops the station in the midst of it finds the old file or the new one.
pub fn save(path: &OsStr, sheet: &[u8], state: [usize; 4]) -> Result<(), Failure> {
    let numbers = state.map(|number| number.to_string()).join(" ");
    let content = format!("state {numbers}\n{}", text::disassemble(sheet));
    let mut beside = OsString::from(path);
    beside.push(".new");
    let written = fs::write(&beside, content).and_then(|()| fs::rename(&beside, path));
    written.map_err(|error| Failure::unwritten(&path.to_string_lossy(), error))
}
