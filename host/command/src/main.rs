//! `ldp-ft`: looks at stored images and captures, and lets two cabinets work.

use std::process::ExitCode;

fn main() -> ExitCode {
    command::run(std::env::args_os().skip(1)).into()
}
