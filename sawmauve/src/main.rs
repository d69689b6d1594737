//! `sawmauve`: the berth meter book as one command.

mod command;

use std::env;
use std::process::ExitCode;

fn main() -> ExitCode {
    let given = env::args_os().skip(1).collect();
    ExitCode::from(command::run(given) as u8)
}
