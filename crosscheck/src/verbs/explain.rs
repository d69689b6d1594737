//! The ways of single slots.

use std::process::ExitCode;
use std::time::Instant;

use crosscheck::guard;
use crosscheck::host::EXPLAINS;
use crosscheck::tries::explain::{self, CLASSES};
use crosscheck::tries::{self, Tally};

pub const OPTIONS: &str = "[--seed S] [--slots N] [--from BOOK] [--trace]";

/// From this many slots on, a class that never occurred is a failure.
const ENOUGH: u64 = 10_000;

struct Options {
    seed: u64,
    slots: u64,
    /// The first book.
    from: u64,
    /// Names each book before it is made, for a build that stops the program.
    trace: bool,
}

fn options(words: &[String]) -> Option<Options> {
    let (mut seed, mut slots, mut from) = (1, ENOUGH, 0);
    let mut places = [
        ("--seed", &mut seed),
        ("--slots", &mut slots),
        ("--from", &mut from),
    ];
    let trace = tries::options(words, &mut places)?;
    Some(Options {
        seed,
        slots,
        from,
        trace,
    })
}

pub fn run(words: &[String]) -> ExitCode {
    let Some(options) = options(words) else {
        return tries::usage(&format!("explain {OPTIONS}"));
    };
    let start = Instant::now();
    let mut tally = Tally::new(CLASSES);
    if !compared(&options, &mut tally) {
        return ExitCode::from(1);
    }
    print!("{tally}");
    let Options { seed, slots, .. } = options;
    let made = format!("{slots} slots, seed {seed}");
    tries::end(
        &tally.missing(),
        "libsawmauve.a",
        start,
        &made,
        slots >= ENOUGH,
    )
}

/// Goes from book to book until there were enough slots; false at a difference.
fn compared(options: &Options, tally: &mut Tally) -> bool {
    let mut left = options.slots;
    let mut book = options.from;
    while left > 0 {
        if options.trace {
            eprintln!("book {book}");
        }
        guard::turn(book);
        match explain::book(options.seed, book, left, Some(EXPLAINS), tally) {
            Ok(made) => left -= made,
            Err(what) => {
                println!("difference: seed {}, book {book}", options.seed);
                println!("  {what}");
                return false;
            }
        }
        book += 1;
    }
    true
}
