//! `simulate`: a berth on paper, one run or a table of them.

use super::Verb;
use super::arguments::{Arguments, Opt};
use super::streams;
use super::trouble::{Status, Trouble};
use sawmauve::{Date, Head, number, simulate};
use std::os::unix::ffi::OsStrExt;

pub const VERB: Verb = Verb {
    name: "simulate",
    takes: "--first DATE --days D --interval L --limit W --tolerance WH --seed S --loss R",
    about: "Runs a berth over a lossy radio, on paper",
    help: "\
Options:
  --first DATE      the first day
  --days D          1 to 400
  --interval L      5, 15 or 30 minutes
  --limit W         the demand limit, 1 to 1,000,000 W
  --tolerance WH    0 to 1,000,000 Wh
  --seed S          from 1 up; --seeds 1,2,3 for a table
  --loss R          slots lost of 1000; --losses 0,1,10 for a table

Written are the state of the span (agrees, scaled, open, disagrees), the
published total minus the true one in Wh, and the same in percent of the true
total. A table has a line for each loss rate and a column for each seed.
",
    options: &[
        Opt("--first", true),
        Opt("--days", true),
        Opt("--interval", true),
        Opt("--limit", true),
        Opt("--tolerance", true),
        Opt("--seed", true),
        Opt("--seeds", true),
        Opt("--loss", true),
        Opt("--losses", true),
    ],
    run,
};

fn needed(arguments: &Arguments, name: &str) -> Result<u32, Trouble> {
    let given = arguments.number(name)?;
    given.ok_or_else(|| arguments.usage(format!("{name} is missing")))
}

fn head(arguments: &Arguments) -> Result<Head, Trouble> {
    let Some(first) = arguments.value("--first") else {
        return Err(arguments.usage("--first is missing"));
    };
    let not = || Trouble::about(first, "--first wants a date, as 2024-05-03");
    let Date { year, month, day } = Date::parse(first.as_bytes()).ok_or_else(not)?;
    Ok(Head {
        year,
        month,
        day,
        days: needed(arguments, "--days")?,
        interval: needed(arguments, "--interval")?,
        limit: needed(arguments, "--limit")?,
        tolerance: needed(arguments, "--tolerance")?,
    })
}

/// The numbers of an option, or of its plural.
fn numbers(arguments: &Arguments, one: &str, several: &str) -> Result<Vec<u32>, Trouble> {
    match (arguments.value(one), arguments.value(several)) {
        (Some(_), Some(_)) => {
            Err(arguments.usage(format!("{one} and {several} exclude each other")))
        }
        (None, Some(list)) => {
            let parts = list.as_bytes().split(|byte| *byte == b',').map(number);
            let not = || Trouble::about(list, format!("{several} wants numbers, as 1,2,3"));
            parts.collect::<Option<Vec<u32>>>().ok_or_else(not)
        }
        _ => Ok(vec![needed(arguments, one)?]),
    }
}

fn run_line(head: Head, seed: u32, loss: u32) -> Result<String, Trouble> {
    simulate(head, seed, loss)
        .map(|run| run.to_string())
        .map_err(Trouble::line)
}

fn table(head: Head, seeds: &[u32], losses: &[u32]) -> Result<String, Trouble> {
    let names: String = seeds.iter().map(|seed| format!(" seed {seed} |")).collect();
    let mut text = format!(
        "| loss rate |{names}\n|---|{}\n",
        "---|".repeat(seeds.len())
    );
    for loss in losses {
        let runs: Result<String, Trouble> = seeds
            .iter()
            .map(|seed| Ok(format!(" {} |", run_line(head, *seed, *loss)?)))
            .collect();
        text += &format!("| {loss} |{}\n", runs?);
    }
    Ok(text)
}

fn run(arguments: &Arguments) -> Result<Status, Trouble> {
    if !arguments.words.is_empty() {
        return Err(arguments.usage("takes options alone"));
    }
    let head = head(arguments)?;
    let seeds = numbers(arguments, "--seed", "--seeds")?;
    let losses = numbers(arguments, "--loss", "--losses")?;
    let text = match (&seeds[..], &losses[..]) {
        ([seed], [loss]) => run_line(head, *seed, *loss)? + "\n",
        _ => table(head, &seeds, &losses)?,
    };
    streams::write(text.as_bytes())?;
    Ok(Status::Done)
}
