//! Tests made one after the other, as many as are wanted, and how many there are so far.

use super::failure::Failure;
use super::input::Input;
use super::output::tell;
use super::work::{builder, watched};
use ranthelo::asked::Asked;
use ranthelo::{Refusal, Verdict, add_test, judge, make};
use std::sync::Arc;
use std::sync::atomic::{AtomicUsize, Ordering};

/// A sheet with tests appended, and whether its list is complete.
pub struct Tests {
    pub sheet: Vec<u8>,
    pub complete: bool,
}

/// The sheet with its list made complete, or with so many tests appended at most. Where nothing limits the number, the
/// library's make does it at once; beside it, for whoever waits at a terminal, the tests are counted as they come.
pub fn tests(input: &Input, most: Option<usize>) -> Result<Tests, Failure> {
    let (sheet, name) = (&input.sheet, &input.name);
    let count = Arc::new(AtomicUsize::new(0));
    let mut counting = false;
    let watch = || {
        if !counting && most.is_none() {
            let (sheet, count) = (sheet.clone(), count.clone());
            // Without this thread nothing is counted, and the work goes on.
            let _ = builder().spawn(move || one_by_one(&sheet, usize::MAX, &count));
        }
        counting = true;
        let so_far = count.load(Ordering::Relaxed);
        tell(&format!(
            "{name}: making tests takes a while; {so_far} so far"
        ));
    };
    let work = || match most {
        None => make(sheet).map(|made| Tests {
            sheet: made.sheet,
            complete: true,
        }),
        Some(most) => one_by_one(sheet, most, &count),
    };
    watched(work, watch)?.map_err(|refusal| input.refused(refusal, &Asked::Made))
}

/// Appends what judge tells, so often at most. Where there is no room, the library's make says so.
fn one_by_one(sheet: &[u8], most: usize, count: &AtomicUsize) -> Result<Tests, Refusal> {
    let mut sheet = sheet.to_vec();
    for made in 0.. {
        let Verdict::Survivor { sequence, .. } = judge(&sheet)? else {
            return Ok(Tests {
                sheet,
                complete: true,
            });
        };
        if made == most {
            break;
        }
        let Ok(longer) = add_test(&sheet, &sequence) else {
            let made = make(&sheet)?;
            return Ok(Tests {
                sheet: made.sheet,
                complete: true,
            });
        };
        sheet = longer;
        count.store(made + 1, Ordering::Relaxed);
    }
    Ok(Tests {
        sheet,
        complete: false,
    })
}
