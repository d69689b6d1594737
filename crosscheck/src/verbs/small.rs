//! The comparisons that are their tries and nothing more.

use std::process::ExitCode;

use crosscheck::host;
use crosscheck::second::reach::W14;
use crosscheck::tries::{Comparison, limits, logs, reach, reconcile, simulate, stays, strips};

pub fn limits(words: &[String]) -> ExitCode {
    let comparison = Comparison {
        name: "limits",
        classes: limits::CLASSES,
        tries: 20_000,
    };
    comparison.run(words, |rng, index, tally| {
        limits::one(rng, index, Some(host::limit), tally)
    })
}

pub fn logs(words: &[String]) -> ExitCode {
    let comparison = Comparison {
        name: "logs",
        classes: logs::CLASSES,
        tries: 8000,
    };
    comparison.run_with(words, logs::Files::new, |files, rng, index, tally| {
        logs::one(files, rng, index, Some(host::LOGS), tally)
    })
}

/// How far one late figure reaches, in the other build's books.
pub fn reach(words: &[String]) -> ExitCode {
    let comparison = Comparison {
        name: "reach",
        classes: reach::CLASSES,
        tries: 5000,
    };
    comparison.run(words, |rng, index, tally| {
        reach::one(rng, index, &host::Host, &W14, tally)
    })
}

/// Pairs of logs and of files, by the package's own `compare` and `reconcile`.
pub fn reconcile(words: &[String]) -> ExitCode {
    let comparison = Comparison {
        name: "reconcile",
        classes: reconcile::CLASSES,
        tries: 3000,
    };
    comparison.run(words, |rng, index, tally| {
        reconcile::one(rng, index, reconcile::SAWMAUVE, tally)
    })
}

pub fn simulate(words: &[String]) -> ExitCode {
    let comparison = Comparison {
        name: "simulate",
        classes: simulate::CLASSES,
        tries: 5000,
    };
    comparison.run(words, |rng, index, tally| {
        simulate::one(rng, index, Some(host::simulate), tally)
    })
}

pub fn stays(words: &[String]) -> ExitCode {
    let comparison = Comparison {
        name: "stays",
        classes: stays::CLASSES,
        tries: 20_000,
    };
    comparison.run_with(words, stays::Files::new, |files, rng, index, tally| {
        stays::one(files, rng, index, Some(host::stays), tally)
    })
}

pub fn strips(words: &[String]) -> ExitCode {
    let comparison = Comparison {
        name: "strips",
        classes: strips::CLASSES,
        tries: 1200,
    };
    comparison.run(words, |rng, index, tally| {
        strips::one(rng, index, Some(host::STRIPS), tally)
    })
}
