//! The verbs of `crosscheck`.

mod bench;
mod compare;
mod dates;
mod dials;
mod explain;
mod nem12;
mod small;

use std::process::ExitCode;

struct Verb {
    name: &'static str,
    options: &'static str,
    what: &'static str,
    run: fn(&[String]) -> ExitCode,
}

/// The options of the smaller comparisons.
const TRIES: &str = "[--seed S] [--tries N] [--from I] [--trace]";

const VERBS: [Verb; 14] = [
    Verb {
        name: "compare",
        options: compare::OPTIONS,
        what: "random books call by call, and damaged files",
        run: compare::run,
    },
    Verb {
        name: "dials",
        options: "[--seed S] [--tries N] [--from I] [--trace] | --all",
        what: "packed decimal, W9; --all is every reading",
        run: dials::run,
    },
    Verb {
        name: "strips",
        options: TRIES,
        what: "strips and back, W13",
        run: small::strips,
    },
    Verb {
        name: "stays",
        options: TRIES,
        what: "stays, W11",
        run: small::stays,
    },
    Verb {
        name: "limits",
        options: TRIES,
        what: "tables of demand limits, W5",
        run: small::limits,
    },
    Verb {
        name: "nem12",
        options: "[--seed S] [--tries N] [--from I] [--trace] | --export EXPORT FILE and the codes of the methods 2 3 5 18 19",
        what: "exports, W8; --export holds one made elsewhere against its file",
        run: nem12::run,
    },
    Verb {
        name: "simulate",
        options: TRIES,
        what: "runs of a berth on paper, W12",
        run: small::simulate,
    },
    Verb {
        name: "reach",
        options: TRIES,
        what: "books before and after one more delivery, W14",
        run: small::reach,
    },
    Verb {
        name: "explain",
        options: explain::OPTIONS,
        what: "ways of single slots",
        run: explain::run,
    },
    Verb {
        name: "logs",
        options: TRIES,
        what: "logs and their playing",
        run: small::logs,
    },
    Verb {
        name: "reconcile",
        options: TRIES,
        what: "pairs of logs over one truth, and pairs of files",
        run: small::reconcile,
    },
    Verb {
        name: "dates",
        options: "[PROGRAM]",
        what: "every date, W4; PROGRAM writes the line of a file",
        run: dates::run,
    },
    Verb {
        name: "bench",
        options: "",
        what: "times of both builds",
        run: bench::run,
    },
    Verb {
        name: "work",
        options: bench::work::OPTIONS,
        what: "a measurement's work, for counting its instructions",
        run: bench::work::run,
    },
];

/// Does what the words ask for.
pub fn run(words: &[String]) -> ExitCode {
    let Some((name, rest)) = words.split_first() else {
        eprint!("{}", help());
        return ExitCode::from(2);
    };
    if name == "--help" {
        print!("{}", help());
        return ExitCode::SUCCESS;
    }
    match VERBS.iter().find(|verb| verb.name == name) {
        Some(verb) if rest.iter().any(|word| word == "--help") => {
            print!("{}", verb.line());
            ExitCode::SUCCESS
        }
        Some(verb) => (verb.run)(rest),
        None => {
            eprint!("crosscheck: no verb {name}\n{}", help());
            ExitCode::from(2)
        }
    }
}

impl Verb {
    fn line(&self) -> String {
        format!(
            "crosscheck {} {}\n    {}\n",
            self.name, self.options, self.what
        )
    }
}

fn help() -> String {
    let lines = VERBS.iter().map(Verb::line).collect::<String>();
    format!(
        "crosscheck VERB: status 0 without a difference, 1 with one, 2 for wrong arguments or a class that never occurred\n{lines}"
    )
}
