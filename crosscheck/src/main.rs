//! The comparisons of the second build with `libsawmauve.a`, a verb each, and the bench of both.

mod verbs;

use std::process::ExitCode;

fn main() -> ExitCode {
    let words: Vec<String> = std::env::args().skip(1).collect();
    verbs::run(&words)
}
