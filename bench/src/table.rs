//! The table that is printed.

use crate::say::say;
use ranthelo_bench::timing;

/// How the time grows when the data doubles.
struct Growth {
    operation: &'static str,
    library: f64,
    plain: f64,
}

pub struct Table {
    /// Whether the library is measured, and not only plain Rust.
    pub library: bool,
    growths: Vec<Growth>,
}

impl Table {
    pub fn new(library: bool) -> Self {
        let head = ["operation", "case", "library", "plain Rust", "ratio"];
        print_row(head.map(str::to_string), "   nodes plain Rust");
        Table {
            library,
            growths: vec![],
        }
    }

    /// Measures and prints one case; gives the times of the library and of plain Rust.
    pub fn measure(
        &mut self,
        operation: &'static str,
        case: &str,
        library: impl FnMut(),
        plain: impl FnMut(),
    ) -> (f64, f64) {
        self.measure_with_note(operation, case, "", library, plain)
    }

    pub fn measure_with_note(
        &mut self,
        operation: &'static str,
        case: &str,
        note: &str,
        library: impl FnMut(),
        plain: impl FnMut(),
    ) -> (f64, f64) {
        let mut cells = [operation, case, "", "", ""].map(str::to_string);
        let times = if self.library {
            let times = timing::compare(library, plain);
            cells[2] = timing::shown(times.0);
            cells[4] = format!("{:.2}", times.0 / times.1);
            times
        } else {
            (f64::NAN, timing::alone(plain))
        };
        cells[3] = timing::shown(times.1);
        print_row(cells, note);
        times
    }

    /// Keeps how the times grew from half the data to the whole.
    pub fn keep_growth(&mut self, operation: &'static str, half: (f64, f64), whole: (f64, f64)) {
        self.growths.push(Growth {
            operation,
            library: whole.0 / half.0,
            plain: whole.1 / half.1,
        });
    }

    pub fn print_growth(&self) {
        say!("\ntwice the data takes so many times as long");
        for growth in &self.growths {
            let (library, plain) = (growth.library, growth.plain);
            let operation = growth.operation;
            say!("{operation:<13} library {library:.2}, plain Rust {plain:.2}");
        }
    }
}

fn print_row([operation, case, library, plain, ratio]: [String; 5], note: &str) {
    let row = format!("{operation:<13} {case:<44} {library:>10} {plain:>11} {ratio:>6}  {note}");
    say!("{}", row.trim_end());
}
