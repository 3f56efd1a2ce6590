//! The command `ranthelo`. It decides nothing: what it says of a sheet the proved library said.

mod command;

use std::process::ExitCode;

fn main() -> ExitCode {
    let arguments = std::env::args_os().skip(1).collect();
    match command::perform(arguments) {
        Ok(status) => status.into(),
        Err(failure) => {
            failure.tell();
            failure.status().into()
        }
    }
}
