//! `page`: a log, or two, as one HTML page to look at.

mod cells;
mod curves;
mod grid;
mod heading;
mod html;
mod lists;
mod month;
mod refused;
mod spans;
mod two;
mod ways;

use super::Verb;
use super::arguments::{Arguments, Opt};
use super::compare::{both, two_names};
use super::publish::{flushed, is_same};
use super::store;
use super::streams;
use super::trouble::{Status, Trouble};
use html::{escaped, page};
use month::Month;
use sawmauve::Error;
use std::ffi::OsStr;
use std::path::Path;
use ways::Ways;

pub const VERB: Verb = Verb {
    name: "page",
    takes: "LOG [THEIRS.log] [-o PAGE]",
    about: "Writes a page to look at: a log's slots, curves, spans and ways, or two logs",
    help: "\
Options:
  -o PAGE   the page's name; without it standard output

The page is one HTML file that asks for nothing from elsewhere. Of a log it has
the published total and how many slots are what; a grid with a row a day and a
cell a slot; each day's curve; the spans; the way of each slot that is not
simply delivered, of the first 2,000, as `follow` prints it; and the refused
calls, conflicts first. Over 62 days a cell is a half hour and a curve a week.
Of two logs it has the grid with the slots that differ outlined, both values,
and what `reconcile` lists; the status is 0 also where they differ.

It is written as `publish` writes a file: a run that fails or is interrupted
leaves the old page.
",
    options: &[Opt("-o", true)],
    run,
};

/// The page of one log.
fn one(month: &Month) -> Result<String, Error> {
    let ways = Ways::of(month);
    let skip = "<p><a class=\"skip\" href=\"#curves\">Skip the slots</a></p>\n";
    let parts = [
        (
            "slots",
            "Slots",
            skip.to_string() + &grid::grid(month, |slot| ways.anchor(slot)),
        ),
        ("curves", "Curves", curves::curves(month)),
        ("spans", "Spans", spans::spans(month)?),
        ("ways", "Ways", ways.section(month)?),
        ("refused", "Refused calls", refused::refused(month)?),
    ];
    let title = format!(
        "{}, {}",
        String::from_utf8_lossy(month.title()),
        heading::dates(month)
    );
    Ok(page(
        &escaped(&title),
        &heading::heading(month),
        &parts,
        month.is_long(),
    ))
}

fn put(out: Option<&OsStr>, logs: &[&OsStr], page: &str) -> Result<(), Trouble> {
    let Some(name) = out.filter(|name| *name != "-") else {
        return streams::write(page.as_bytes());
    };
    if logs.iter().any(|log| is_same(log, name)) {
        return Err(Trouble::about(name, "the log itself"));
    }
    let stored = store::store(Path::new(name), page.as_bytes(), |_| true);
    match stored.map_err(|error| Trouble::io(name, &error))? {
        Some(folder) => flushed(&folder),
        None => Ok(()),
    }
}

fn run(arguments: &Arguments) -> Result<Status, Trouble> {
    let out = arguments.value("-o");
    if arguments.words.len() == 2 {
        let names = two_names(arguments, "a log or two logs")?;
        let [ours, theirs] = names.map(streams::read);
        let bytes = both(ours, theirs)?;
        let month =
            |name, bytes| Month::of(name, bytes).map_err(|error| Trouble::refused(name, error));
        let months = both(month(names[0], &bytes.ours), month(names[1], &bytes.theirs))?;
        let page = two::two(&months).map_err(|error| Trouble::refused(names[0], error))?;
        put(out, &names, &page)?;
        return Ok(Status::Done);
    }
    let [name] = arguments.exactly("a log or two logs")?;
    let bytes = streams::read(name)?;
    let page = Month::of(name, &bytes).and_then(|month| one(&month));
    let page = page.map_err(|error| Trouble::refused(name, error))?;
    put(out, &[name], &page)?;
    Ok(Status::Done)
}
