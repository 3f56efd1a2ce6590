//! What the tests of the library rest on: a reader and a judge written a second
//! time, in plain Rust and from documents 01 and 02 alone; sheets to try; and the
//! library's functions with guards around what they are lent.

pub mod drawing;
pub mod enumeration;
pub mod generator;
pub mod guarded;
pub mod listed;
pub mod merging;
pub mod numbering;
pub mod passing;
pub mod pictures;
pub mod records;
pub mod reference;
pub mod seeded;
pub mod station;
