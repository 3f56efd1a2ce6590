//! Work that may take long: in a thread with the stack that it needs, and with a word to whoever waits at a terminal.

use super::failure::Failure;
use super::output;
use std::io::{self, IsTerminal};
use std::sync::mpsc::{RecvTimeoutError, channel};
use std::thread::{self, Builder};
use std::time::Duration;

/// How long nothing is said, and how long between two words.
const PATIENCE: Duration = Duration::from_secs(1);

/// Does some work; if it takes over a second and standard error is a terminal, says there what is being done.
pub fn at_work<T: Send>(what: &str, work: impl FnOnce() -> T + Send) -> Result<T, Failure> {
    let mut said = false;
    watched(work, || {
        if !said {
            output::tell(what);
        }
        said = true;
    })
}

/// Does some work; while it goes on and standard error is a terminal, there is a word every second.
pub fn watched<T: Send>(
    work: impl FnOnce() -> T + Send,
    mut tell: impl FnMut(),
) -> Result<T, Failure> {
    let heard = io::stderr().is_terminal();
    with_patience(
        PATIENCE,
        || {
            if heard {
                tell()
            }
        },
        work,
    )
    .map_err(unstarted)
}

fn unstarted(error: io::Error) -> Failure {
    Failure::usage(format!("no thread can be started: {error}"))
}

/// A thread with the stack that judging needs.
pub fn builder() -> Builder {
    Builder::new().stack_size(2 * ranthelo::STACK)
}

fn with_patience<T: Send>(
    patience: Duration,
    mut tell: impl FnMut(),
    work: impl FnOnce() -> T + Send,
) -> io::Result<T> {
    thread::scope(|scope| {
        let (done, wait) = channel();
        let worker = builder().spawn_scoped(scope, move || {
            let result = work();
            let _ = done.send(());
            result
        })?;
        while wait.recv_timeout(patience) == Err(RecvTimeoutError::Timeout) {
            tell();
        }
        Ok(worker.join().expect("the work ends"))
    })
}

#[cfg(test)]
mod tests {
    use super::*;

    fn told(patience: u64, work: u64) -> (usize, u8) {
        let mut told = 0;
        let [patience, work] = [patience, work].map(Duration::from_millis);
        let result = with_patience(
            patience,
            || told += 1,
            || {
                thread::sleep(work);
                7
            },
        );
        (told, result.expect("a thread starts"))
    }

    #[test]
    fn only_long_work_is_told() {
        let (words, result) = told(20, 200);
        assert!(words > 1 && result == 7);
        assert_eq!(told(10_000, 1), (0, 7));
    }
}
