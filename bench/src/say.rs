//! Lines on standard output.

use std::fmt::Arguments;
use std::io::{self, ErrorKind, Write};
use std::process::exit;

/// Prints a line. If nobody reads it any more, the program ends without a word.
pub fn line(text: Arguments) {
    match writeln!(io::stdout().lock(), "{text}") {
        Ok(()) => {}
        Err(error) if error.kind() == ErrorKind::BrokenPipe => exit(3),
        Err(error) => {
            eprintln!("standard output: {error}");
            exit(3);
        }
    }
}

/// Prints a line as `println` does.
macro_rules! say {
    ($($text:tt)*) => { crate::say::line(format_args!($($text)*)) };
}
pub(crate) use say;
