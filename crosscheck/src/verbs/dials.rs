//! Packed decimal, W9: random tries, or all readings with `--all`.

use std::process::ExitCode;
use std::time::Instant;

use crosscheck::host::DIALS;
use crosscheck::tries::dials::{self, CLASSES};
use crosscheck::tries::{self, Comparison, LINKED};

pub fn run(words: &[String]) -> ExitCode {
    if words == ["--all"] {
        return all();
    }
    let comparison = Comparison {
        name: "dials",
        classes: CLASSES,
        tries: 20_000,
    };
    comparison.run(words, |rng, index, tally| {
        dials::one(rng, index, Some(DIALS), tally)
    })
}

fn all() -> ExitCode {
    let start = Instant::now();
    if let Err(what) = dials::all(Some(DIALS)) {
        println!("difference: {what}");
        return ExitCode::from(1);
    }
    let missing: [&str; 0] = [];
    tries::end(&missing, LINKED, start, "all 100000000 readings", true)
}
