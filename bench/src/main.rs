//! Prints how long the library's operations take, beside the same in plain Rust, how long lists take
//! to be made, boards to be taken and records to be checked, and how much stack it all needs. With
//! --plain: how long judge takes in plain Rust alone; with --making, --walking or --records: that
//! part alone.

mod generate;
mod judge;
mod making;
mod merging;
mod mutation;
mod numbering;
mod reading;
mod records;
mod say;
mod stack;
mod station;
mod table;
mod walking;
mod writing;

use table::Table;

fn main() {
    let arguments: Vec<String> = std::env::args().skip(1).collect();
    if let [first, operation, bytes] = &arguments[..] {
        if first == stack::ARGUMENT {
            return stack::try_one(operation, bytes);
        }
    }
    if arguments == ["--making"] {
        return making::print();
    }
    if arguments == ["--records"] {
        return records::print();
    }
    if arguments == ["--walking"] {
        return walking::print();
    }
    let library = arguments != ["--plain"];
    let mut table = Table::new(library);
    if library {
        reading::measure(&mut table);
        writing::measure(&mut table);
        generate::measure(&mut table);
        merging::measure(&mut table);
        numbering::measure(&mut table);
        mutation::measure(&mut table);
        walking::measure(&mut table);
        station::measure(&mut table);
    }
    judge::measure(&mut table);
    if library {
        table.print_growth();
        making::print();
        records::print();
        walking::print();
        stack::print();
    }
}
