//! `follow`: one slot's way through the book, from the log's lines to its published record.

use super::Verb;
use super::arguments::Arguments;
use super::streams;
use super::trouble::{Status, Trouble};
use super::way::Ways;
use sawmauve::{Date, Error, Log, Refusal, minute};
use std::os::unix::ffi::OsStrExt;

pub const VERB: Verb = Verb {
    name: "follow",
    takes: "LOG DATE TIME",
    about: "Follows one slot from the log's lines to its published record",
    help: "\
DATE is as 2024-05-03 and TIME as 05:10; a time inside a slot names the slot.
Written are the lines of the log that name it, with their answers, what stands
in its cell, its cause, the rule that filled it, its span, its shares where it
is scaled, and its record in the file.
",
    options: &[],
    run,
};

fn way(log: &Log, date: Date, minute: u32) -> Result<String, Error> {
    let slot = log.head().slot_at(date, minute)?;
    let played = log.play()?;
    Ways::of(log, &played, |named| named == slot)?.text(slot)
}

fn run(arguments: &Arguments) -> Result<Status, Trouble> {
    let wants = "a log, a date and a time of day, as month.log 2024-05-03 05:00";
    let [name, date, time] = arguments.exactly(wants)?;
    let date = Date::parse(date.as_bytes()).filter(|date| date.day_number().is_some());
    let (Some(date), Some(minute)) = (date, minute(time.as_bytes())) else {
        return Err(arguments.usage(format!("wants {wants}")));
    };
    let bytes = streams::read(name)?;
    let log = Log::read(&bytes).map_err(|error| Trouble::refused(name, error))?;
    let text = way(&log, date, minute).map_err(|error| match error {
        Error::Refused(Refusal::Place) => Trouble::about(name, "no slot of this log"),
        _ => Trouble::refused(name, error),
    })?;
    streams::write(text.as_bytes())?;
    Ok(Status::Done)
}
