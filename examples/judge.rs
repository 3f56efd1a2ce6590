//! Prints the test that a sheet's list lacks. The sheet is in the file that the argument names, as text or bytes.

use ranthelo::{Verdict, judge, text};
use std::{env, error::Error, fs};

fn main() -> Result<(), Box<dyn Error>> {
    let path = env::args().nth(1).ok_or("name a sheet")?;
    let sheet = text::bytes_of(fs::read(path)?)?;
    match judge(&sheet)? {
        Verdict::Complete => println!("complete"),
        Verdict::Survivor { sequence, .. } => println!("add the test {sequence:?}"),
    }
    Ok(())
}
