//! `stays`: the totals of stays in a file.

use super::Verb;
use super::arguments::Arguments;
use super::streams;
use super::trouble::{Status, Trouble, refused_line, tell};
use sawmauve::{Date, File};
use std::ffi::{OsStr, OsString};
use std::os::unix::ffi::OsStrExt;

pub const VERB: Verb = Verb {
    name: "stays",
    takes: "FILE FROM UNTIL ..",
    about: "Totals up to 64 stays in a file",
    help: "\
FROM is the first day of a stay and UNTIL the day after the last one counted, as
2024-05-03 2024-05-10. A line a stay: the first and the last day counted, and
the total in Wh. A refused file is status 1.
",
    options: &[],
    run,
};

/// A date as a day of the file, counted from 0; its last boundary too.
fn day_of(file: &File, word: &OsStr) -> Result<u32, Trouble> {
    let not = || Trouble::about(word, "not a date, as 2024-05-03");
    let number = Date::parse(word.as_bytes())
        .and_then(Date::day_number)
        .ok_or_else(not)?;
    let day = number.checked_sub(file.figures().first);
    let inside = day.filter(|day| *day <= file.figures().days);
    inside.ok_or_else(|| Trouble::about(word, "outside the file's days"))
}

fn pairs_of(file: &File, words: &[OsString]) -> Result<Vec<(u32, u32)>, Trouble> {
    let (pairs, _) = words.as_chunks::<2>();
    pairs
        .iter()
        .map(|[from, until]| Ok((day_of(file, from)?, day_of(file, until)?)))
        .collect()
}

fn lines(file: &File, pairs: &[(u32, u32)], totals: &[u64]) -> String {
    let first = file.figures().first;
    let dates = pairs.iter().filter_map(|(from, until)| {
        Some((
            Date::of(first + from)?,
            Date::of((first + until).checked_sub(1)?)?,
        ))
    });
    dates
        .zip(totals)
        .map(|((from, last), total)| format!("{from} {last} {total}\n"))
        .collect()
}

fn run(arguments: &Arguments) -> Result<Status, Trouble> {
    let [name, words @ ..] = &arguments.words[..] else {
        return Err(arguments.usage("wants a file and stays"));
    };
    if words.len() % 2 != 0 {
        return Err(arguments.usage("wants two dates for each stay"));
    }
    let file = match streams::read_file(name)? {
        Ok(file) => file,
        Err(error) => {
            tell(&refused_line(name, error));
            return Ok(Status::No);
        }
    };
    let pairs = pairs_of(&file, words)?;
    let totals = file
        .stays(&pairs)
        .map_err(|error| Trouble::refused(name, error))?;
    streams::write(lines(&file, &pairs, &totals).as_bytes())?;
    Ok(Status::Done)
}
