//! Every date from 2000-01-01 to 2099-12-31 and impossible ones, W4.

use std::process::ExitCode;
use std::time::Instant;

use crosscheck::host::BOOKS;
use crosscheck::tries::dates::{self, CLASSES};
use crosscheck::tries::{self, Tally};

pub fn run(words: &[String]) -> ExitCode {
    let program = match words {
        [] => None,
        [program] => Some(program.as_str()),
        _ => return tries::usage("dates [PROGRAM]"),
    };
    let start = Instant::now();
    let mut tally = Tally::new(CLASSES);
    let back = |()| program.map_or(Ok(()), dates::shown);
    if let Err(what) = dates::all(Some(BOOKS), &mut tally).and_then(back) {
        println!("difference: {what}");
        return ExitCode::from(1);
    }
    print!("{tally}");
    let back = program.map(|program| format!(", there and, by {program}, back"));
    let made = format!("all 36525 dates{}", back.unwrap_or_default());
    let against = "libsawmauve.a and a walked calendar";
    tries::end(&tally.missing(), against, start, &made, true)
}
