//! Judges whether a test suite for a finite state machine is complete.
//!
//! These are safe functions over the proved library. A sheet is a string of bytes: a specified machine, the faults that
//! production may introduce, and a list of tests. [`judge`] says whether the list is complete, and if it is not, which
//! faulty board passes it and which test to add; [`make`] adds tests until it is. [`take`] gives the boards that pass
//! one after another, and [`add_test`] a longer list; a [`Station`] drives a lock through a complete one.
//! docs/FORMAT.md of the repository has the format and what the answers mean.
//!
//! ```
//! use ranthelo::{Verdict, judge, text};
//!
//! // Two states; in state 1, press 1 may fail to lead back to state 0.
//! let sheet = text::assemble(
//!     b"SIZE 2 2 2
//!       RULE 0 0 1 1
//!       RULE 0 1 0 0
//!       RULE 1 0 0 1
//!       RULE 1 1 1 0
//!       FAULT 1 1 1 1
//!       TEST 0 1",
//! )?;
//! match judge(&sheet)? {
//!     Verdict::Complete => println!("complete"),
//!     Verdict::Survivor { sequence, .. } => println!("add the test {sequence:?}"),
//! }
//! # assert!(matches!(judge(&sheet)?, Verdict::Survivor { sequence, .. } if sequence == [0, 1, 0]));
//! # Ok::<(), Box<dyn std::error::Error>>(())
//! ```
//!
//! Every operation takes the sheet's bytes and gives a `Result`: its answer, or a [`Refusal`] with a number and a
//! place. The functions keep nothing between calls and may be called from many threads at once.
//!
//! What the operations answer is proved. The modules [`text`], [`commands`], [`machine`], [`list`], [`explain`],
//! [`asked`], [`faults`], [`import`], [`records`] and [`draw`] are plain Rust: they spell and show, and decide nothing
//! of a sheet.

#![deny(missing_docs)]

mod answers;
pub mod asked;
mod columns;
pub mod commands;
pub mod draw;
pub mod explain;
pub mod faults;
pub mod import;
pub mod list;
pub mod machine;
mod names;
mod operations;
pub mod raw;
pub mod records;
mod refusal;
pub mod score;
mod station;
pub mod text;
mod walk;

pub use names::{Named, Names};
pub use operations::check_record as check_log;
pub use operations::{
    Comparison, Failure, Made, MergeRefusal, Passing, Place, Recorded, Run, Summary, Trial, Used,
    Verdict, add_test, check_record, compare, explain_record, first_failed, generate, judge, make,
    merge, read, renumber, run, take, test_part, test_span, tray, write,
};
pub use raw::Tables;
pub use refusal::{Kind as RefusalKind, Refusal, meaning};
pub use station::{Station, Step};
pub use walk::Walk;

/// The most bytes that a sheet has.
pub const MOST_BYTES: usize = 16_384;
/// The most FAULTs that a sheet has.
pub const MOST_FAULTS: usize = 256;
/// The most TESTs that a sheet has.
pub const MOST_TESTS: usize = 256;
/// The most PRESSes that a test has.
pub const MOST_PRESSES: usize = 256;
/// The most open pairs that a sheet has: the most choices of a board.
pub const MOST_OPEN_PAIRS: usize = 32;
/// The most presses of a shortest departing sequence.
pub const MOST_SEQUENCE: usize = 256;
/// A stack on which every operation finishes, in bytes. With less, judging overflows the stack.
pub const STACK: usize = 512 * 1024;
