//! The verbs, and the way from the words of a command line to a status.

mod answers;
mod arguments;
mod closed;
mod compare;
mod days;
mod differences;
mod folders;
mod follow;
mod nem12;
mod page;
mod publish;
mod reconcile;
mod sheet;
mod show;
mod simulate;
mod stays;
mod store;
mod streams;
mod strips;
mod tasks;
mod times;
mod trouble;
mod way;

use arguments::{Arguments, Opt};
use std::ffi::OsString;
use trouble::{Status, Trouble};

/// A verb: its name, its arguments and what it does in a line, the rest of its help, its options and its work.
struct Verb {
    name: &'static str,
    takes: &'static str,
    about: &'static str,
    help: &'static str,
    options: &'static [Opt],
    run: fn(&Arguments) -> Result<Status, Trouble>,
}

const VERBS: [&Verb; 13] = [
    &publish::VERB,
    &answers::VERB,
    &show::VERB,
    &days::VERB,
    &follow::VERB,
    &page::VERB,
    &compare::VERB,
    &reconcile::VERB,
    &stays::VERB,
    &nem12::VERB,
    &simulate::VERB,
    &strips::TO,
    &strips::FROM,
];

const STATUSES: &str = "\
`-` is standard input or standard output.
Status: 0 done; 1 the answer is no; 2 trouble, with a line on standard error.
";

fn verb_help(verb: &Verb) -> String {
    let Verb {
        name,
        takes,
        about,
        help,
        ..
    } = verb;
    format!("Usage: sawmauve {name} {takes}\n\n{about}.\n\n{help}\n{STATUSES}")
}

fn whole_help() -> String {
    let mut text = "Usage: sawmauve VERB ARGUMENT..\n\n".to_string();
    for verb in VERBS {
        text += &format!("  {:<10} {}\n", verb.name, verb.about);
    }
    text + "\nsawmauve VERB --help says more, sawmauve --version prints the version.\n" + STATUSES
}

fn version() -> String {
    format!(
        "sawmauve {} ({})\n",
        env!("CARGO_PKG_VERSION"),
        sawmauve::KIT
    )
}

fn run_verb(verb: &Verb, given: Vec<OsString>) -> Result<Status, Trouble> {
    let arguments = Arguments::parse(verb.name, verb.options, given)?;
    if arguments.has("--help") {
        streams::write(verb_help(verb).as_bytes())?;
        return Ok(Status::Done);
    }
    (verb.run)(&arguments)
}

fn dispatch(mut given: Vec<OsString>) -> Result<Status, Trouble> {
    if given.is_empty() {
        return Err(Trouble::line("a verb is missing (see sawmauve --help)"));
    }
    let name = given.remove(0);
    let text = match name.to_str() {
        Some("--help") => whole_help(),
        Some("--version") => version(),
        word => match VERBS.into_iter().find(|verb| Some(verb.name) == word) {
            Some(verb) => return run_verb(verb, given),
            None => return Err(Trouble::about(&name, "no verb (see sawmauve --help)")),
        },
    };
    streams::write(text.as_bytes())?;
    Ok(Status::Done)
}

/// Does what the words ask for.
pub fn run(given: Vec<OsString>) -> Status {
    trouble::report_panics();
    dispatch(given).unwrap_or_else(|trouble| trouble.tell())
}
