//! Times of two functions in one run.

use std::time::{Duration, Instant};

/// How many batches are timed at most; the quickest counts, as what else the machine does only
/// adds to the time.
const BATCHES: usize = 51;
/// How long a batch lasts at least.
const BATCH: Duration = Duration::from_millis(1);
/// How long all batches together should last.
const ALL: Duration = Duration::from_millis(1000);

/// A function with the number of its calls in a batch and the times of its batches.
struct Timed<F> {
    function: F,
    calls: u32,
    times: Vec<Duration>,
}

impl<F: FnMut()> Timed<F> {
    /// Doubles the calls until they make a batch, which is the first one.
    fn new(function: F) -> Self {
        let mut timed = Timed {
            function,
            calls: 1,
            times: vec![],
        };
        timed.batch();
        while timed.times[0] < BATCH {
            timed.calls *= 2;
            timed.times.clear();
            timed.batch();
        }
        timed
    }

    fn batch(&mut self) {
        let start = Instant::now();
        for _ in 0..self.calls {
            (self.function)();
        }
        self.times.push(start.elapsed());
    }

    /// The least time of one call, in nanoseconds.
    fn least(self) -> f64 {
        let least = self.times.into_iter().min().unwrap_or_default();
        least.as_nanos() as f64 / f64::from(self.calls)
    }
}

/// The least time of one call, in nanoseconds.
pub fn alone(function: impl FnMut()) -> f64 {
    let mut timed = Timed::new(function);
    let enough = ALL.div_duration_f64(timed.times[0]);
    for _ in 1..BATCHES.min(enough as usize) {
        timed.batch();
    }
    timed.least()
}

/// The least times of one call of each, in nanoseconds. Batches of the two alternate.
pub fn compare(first: impl FnMut(), second: impl FnMut()) -> (f64, f64) {
    let (mut first, mut second) = (Timed::new(first), Timed::new(second));
    let enough = ALL.div_duration_f64(first.times[0] + second.times[0]);
    for _ in 1..BATCHES.min(enough as usize) {
        first.batch();
        second.batch();
    }
    (first.least(), second.least())
}

/// A time with a fitting unit.
pub fn shown(nanoseconds: f64) -> String {
    match nanoseconds {
        t if t < 1e3 => format!("{t:.0} ns"),
        t if t < 1e6 => format!("{:.2} µs", t / 1e3),
        t => format!("{:.2} ms", t / 1e6),
    }
}
