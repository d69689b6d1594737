//! `days`: how many slots of each day have come.

use super::Verb;
use super::arguments::Arguments;
use super::streams;
use super::trouble::{Status, Trouble};
use sawmauve::{Book, Date, Log};

pub const VERB: Verb = Verb {
    name: "days",
    takes: "LOG",
    about: "Writes a line a day: date, how many of its slots have come, how many it has",
    help: "A day of which all slots have come has two equal numbers.\n",
    options: &[],
    run,
};

fn lines(book: &Book) -> String {
    let head = book.head();
    let first = head.first().day_number().unwrap_or(0);
    let days = (first..).zip(book.counts());
    days.filter_map(|(day, count)| {
        let date = Date::of(day)?;
        Some(format!("{date} {count} {}\n", head.slots_per_day()))
    })
    .collect()
}

fn run(arguments: &Arguments) -> Result<Status, Trouble> {
    let [name] = arguments.exactly("a log")?;
    let bytes = streams::read(name)?;
    let played = Log::read(&bytes).and_then(|log| log.play());
    let played = played.map_err(|error| Trouble::refused(name, error))?;
    streams::write(lines(&played.book).as_bytes())?;
    Ok(Status::Done)
}
