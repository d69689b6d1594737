//! Runs random books and damaged files through both builds and stops at a difference.

use std::process::ExitCode;
use std::time::Instant;

use crosscheck::census::counts::Counts;
use crosscheck::compare::calls::{Book, Call};
use crosscheck::compare::damage::{self, Bases, Damaged};
use crosscheck::compare::random;
use crosscheck::compare::run::{Difference, compare_readers, run as compared};
use crosscheck::compare::shrink::shrink;
use crosscheck::compare::side::Side;
use crosscheck::guard;
use crosscheck::host::Host;
use crosscheck::tries;

pub const OPTIONS: &str = "[--seed S] [--books N] [--damaged M] [--from I] [--trace]";

/// From this many books and damaged files on, a class that never occurred is a failure.
const ENOUGH_BOOKS: u64 = 2000;
const ENOUGH_DAMAGED: u64 = 20_000;

const OTHER: Option<&dyn Side> = Some(&Host);

/// Files the damage is done to.
const BASES: usize = 150;

struct Options {
    seed: u64,
    books: u64,
    damaged: u64,
    /// The first book and the first damaged file to run.
    from: u64,
    /// Names each book before it runs, for a build that stops the program.
    trace: bool,
}

fn options(words: &[String]) -> Option<Options> {
    let (mut seed, mut books, mut damaged, mut from) = (1, 0, 0, 0);
    let mut places = [
        ("--seed", &mut seed),
        ("--books", &mut books),
        ("--damaged", &mut damaged),
        ("--from", &mut from),
    ];
    let trace = tries::options(words, &mut places)?;
    Some(Options {
        seed,
        books,
        damaged,
        from,
        trace,
    })
}

pub fn run(words: &[String]) -> ExitCode {
    let Some(options) = options(words) else {
        return tries::usage(&format!("compare {OPTIONS}"));
    };
    let start = Instant::now();
    let mut counts = Counts::default();
    let passed = run_books(&options, &mut counts) && run_damaged(&options, &mut counts);
    if !passed {
        return ExitCode::from(1);
    }
    print!("{counts}");
    let Options {
        seed,
        books,
        damaged,
        ..
    } = options;
    let made = format!("{books} books and {damaged} damaged files, seed {seed}");
    let enough = books >= ENOUGH_BOOKS && damaged >= ENOUGH_DAMAGED;
    let against = "libsawmauve.a and the plain book";
    tries::end(&counts.missing(), against, start, &made, enough)
}

fn run_books(options: &Options, counts: &mut Counts) -> bool {
    for index in options.from..options.from + options.books {
        let book = random::book(options.seed, index);
        if options.trace {
            eprintln!("book {index}: {:?}, {} calls", book.head, book.calls.len());
        }
        guard::turn(index);
        if let Err(difference) = compared(&book, OTHER, counts) {
            report_book(options.seed, index, &book, &difference);
            return false;
        }
    }
    true
}

fn with_calls(book: &Book, calls: &[Call]) -> Book {
    Book {
        calls: calls.to_vec(),
        ..book.clone()
    }
}

fn report_book(seed: u64, index: u64, book: &Book, difference: &Difference) {
    println!(
        "difference: seed {seed}, book {index}, call {}",
        difference.call
    );
    println!("  {}", difference.what);
    let outcome =
        |calls: &[Call]| compared(&with_calls(book, calls), OTHER, &mut Counts::default());
    let calls = shrink(&book.calls, |calls| outcome(calls).is_err());
    println!(
        "shortest list found, {} calls on {:?}:",
        calls.len(),
        book.head
    );
    for (i, call) in calls.iter().enumerate() {
        print!("  {i}: {:?}", call.act);
        if let Some((list, len)) = call.resized {
            print!(", {list:?} lent {len} long");
        }
        if call.head != book.head {
            print!(", given {:?}", call.head);
        }
        println!();
    }
    if let Err(last) = outcome(&calls) {
        println!("  at call {}: {}", last.call, last.what);
    }
}

fn run_damaged(options: &Options, counts: &mut Counts) -> bool {
    let bases = Bases::new(options.seed, BASES);
    for index in options.from..options.from + options.damaged {
        let damaged = bases.damaged(options.seed, index);
        let file = damaged.file();
        damage::count(&damaged, &file, counts);
        guard::turn(index);
        if let Err(what) = compare_readers(&file, OTHER, counts) {
            report_damaged(options.seed, index, &damaged, &what);
            return false;
        }
    }
    true
}

fn report_damaged(seed: u64, index: u64, damaged: &Damaged, what: &str) {
    println!("difference: seed {seed}, damaged file {index}");
    println!("  {what}");
    let outcome = |edits: &[damage::Edit]| {
        let file = damage::edited(&damaged.base, edits);
        compare_readers(&file, OTHER, &mut Counts::default())
    };
    let edits = shrink(&damaged.edits, |edits| outcome(edits).is_err());
    println!("a file of {} bytes and the edits:", damaged.base.len());
    for edit in &edits {
        println!("  {edit:?}");
    }
    if let Err(last) = outcome(&edits) {
        println!("  {last}");
    }
    let file = damage::edited(&damaged.base, &edits);
    println!("the file: {}", tries::hex(&file));
}
