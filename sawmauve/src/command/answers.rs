//! `answers`: what each call of a log got.

use super::Verb;
use super::arguments::{Arguments, Opt};
use super::streams;
use super::trouble::{Status, Trouble};
use sawmauve::{Answer, Log, Played};

pub const VERB: Verb = Verb {
    name: "answers",
    takes: "LOG [--refused]",
    about: "Writes the answer of each call of a log",
    help: "\
Options:
  --refused   only the refused calls, each with its line and why

One line a call: done (the opening), stored, late, repeat or refused N.
",
    options: &[Opt("--refused", false)],
    run,
};

fn all(played: &Played) -> String {
    let calls = played.answers().filter(|answer| *answer != Answer::Nothing);
    calls.map(|answer| format!("{answer}\n")).collect()
}

fn refused(played: &Played) -> String {
    let lines = (1..).zip(played.answers());
    lines
        .filter_map(|(line, answer): (u64, Answer)| match answer {
            Answer::Refused(refusal) => Some(format!("line {line}: {refusal}\n")),
            _ => None,
        })
        .collect()
}

fn run(arguments: &Arguments) -> Result<Status, Trouble> {
    let [name] = arguments.exactly("a log")?;
    let bytes = streams::read(name)?;
    let played = Log::read(&bytes).and_then(|log| log.play());
    let played = played.map_err(|error| Trouble::refused(name, error))?;
    let text = if arguments.has("--refused") {
        refused(&played)
    } else {
        all(&played)
    };
    streams::write(text.as_bytes())?;
    Ok(Status::Done)
}
