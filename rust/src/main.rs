//! The command `glouds`: the library's functions on files, for build scripts.

mod command;

use std::io::Write;
use std::process::ExitCode;

fn main() -> ExitCode {
    let arguments: Vec<_> = std::env::args_os().skip(1).collect();
    match command::run(&arguments) {
        Ok(()) => ExitCode::SUCCESS,
        Err(failure) => {
            // Where this cannot be written, the status still tells.
            let _ = writeln!(std::io::stderr(), "glouds: {failure}");
            ExitCode::from(failure.status())
        }
    }
}
