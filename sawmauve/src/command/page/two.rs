//! The page of two logs: one grid with the slots that differ outlined, both values, and what `reconcile` lists.

use super::super::differences::signed;
use super::cells::{Cell, Kind};
use super::grid::{self, Margin};
use super::heading::{self, fact};
use super::html::{self, counted, escaped, grouped, shown};
use super::lists::{self, Listing};
use super::month::Month;
use sawmauve::{Comparison, Error, Pair, Reconciliation, reconcile};
use std::os::unix::ffi::OsStrExt;

/// One of two that are the same, or both.
fn either(pair: &Pair<String>) -> String {
    match pair.is_equal() {
        true => pair.ours.clone(),
        false => format!("{} / {}", pair.ours, pair.theirs),
    }
}

fn margins(months: &Pair<Month>) -> Vec<Margin> {
    let of = |day: u32| {
        let margins = months.map(|month| grid::margin(month, day));
        let dials = margins.map(|margin| margin.dial.clone());
        let none = || "none".to_string();
        Margin {
            date: margins.ours.date.clone(),
            total: either(&margins.map(|margin| margin.total.clone())),
            dial: match &dials {
                Pair {
                    ours: None,
                    theirs: None,
                } => None,
                _ => Some(either(&dials.map(|dial| dial.clone().unwrap_or_else(none)))),
            },
            is_holiday: margins.ours.is_holiday || margins.theirs.is_holiday,
        }
    };
    (0..=months.ours.head().days).map(of).collect()
}

/// What a cell that differs shows.
fn label(month: &Month, cells: &Pair<Cell>) -> String {
    let period = month.period_of(&cells.ours);
    let side = |cell: &Cell| format!("{} Wh, {}", grouped(cell.value()), cell.words());
    let Pair { ours, theirs } = cells.map(side);
    format!("{period}\nours {ours}\ntheirs {theirs}")
}

/// A cell: ours by its colour, and theirs beside it where they differ.
fn cell(month: &Month, cells: Pair<Cell>, listing: &Listing) -> String {
    let kinds = cells.map(Cell::kind);
    let (class, letter) = (kinds.ours.class(), kinds.ours.letter());
    let mut pairs = (cells.ours.first..).zip(cells.ours.slots.iter().zip(cells.theirs.slots));
    let Some((slot, _)) = pairs.find(|(_, (ours, theirs))| ours != theirs) else {
        let label = escaped(&cells.ours.label(&month.period_of(&cells.ours)));
        return format!(
            "<td class=\"{class}\" tabindex=\"0\" aria-label=\"{label}\">{letter}</td>"
        );
    };
    let Pair { ours, theirs } = kinds.map(|kind| {
        if *kind == Kind::Measured {
            "·"
        } else {
            kind.letter()
        }
    });
    format!(
        "<td class=\"{class} differs with-{}\"><a id=\"slot-{}\" href=\"#{}\" aria-label=\"{}\">{ours}{theirs}</a></td>",
        kinds.theirs.class(),
        cells.ours.first,
        listing.anchor(slot),
        escaped(&label(month, &cells))
    )
}

fn slots(months: &Pair<Month>, moved: &Comparison) -> String {
    let listing = Listing::of(moved);
    let cells = months.ours.cells().zip(months.theirs.cells());
    let cells: Vec<String> = cells
        .map(|(ours, theirs)| cell(&months.ours, Pair { ours, theirs }, &listing))
        .collect();
    format!(
        "<p>Outlined are the slots that differ: ours is the upper left of a cell, theirs the lower right.</p>\n{}{}",
        heading::kinds(),
        grid::table(&margins(months), &cells, months.ours.cells_per_day())
    )
}

/// Whether the files are equal, in words.
fn verdict(found: &Reconciliation) -> String {
    let Some(moved) = &found.moved else {
        return "The slots are other times: no more is compared.".to_string();
    };
    let slots: usize = moved.runs.iter().map(|run| run.slots.len()).sum();
    match (found.is_empty(), moved.is_empty()) {
        (true, _) => "Nothing to list: one head, the same accepted calls, equal files.".to_string(),
        (_, true) => "The files are equal; the logs are not.".to_string(),
        _ => format!(
            "The files differ: {} and {}.",
            counted(slots, "slot", "slots"),
            counted(moved.spans.len(), "span", "spans")
        ),
    }
}

fn header(months: &Pair<Month>, found: &Reconciliation) -> String {
    let sums = months.map(|month| month.file.figures().sum);
    let name = |month: &Month| match month.name == "-" {
        true => shown(month.title()),
        false => shown(month.name.as_bytes()),
    };
    let (names, totals) = (
        months.map(name),
        sums.map(|sum| format!("<b>{}</b> Wh", grouped(*sum))),
    );
    let facts = |of: fn(&Month) -> String| either(&months.map(of));
    let mut text = fact("Ours, published total", &totals.ours);
    text += &fact("Theirs, published total", &totals.theirs);
    text += &fact("Difference", &signed(sums.difference()));
    text += &fact("Dates", &facts(heading::dates));
    text += &fact(
        "Interval",
        &facts(|month| format!("{} minutes", month.head().interval)),
    );
    text += &fact(
        "Demand limit",
        &facts(|month| format!("{} W", grouped(month.head().limit))),
    );
    text += &fact(
        "Tolerance",
        &facts(|month| format!("{} Wh", grouped(month.head().tolerance))),
    );
    format!(
        "<h1><span><small>ours</small> {}</span> <span><small>theirs</small> {}</span></h1>\n\
         <p class=\"comment\">{}</p>\n<dl class=\"facts\">{text}</dl>\n",
        names.ours,
        names.theirs,
        verdict(found)
    )
}

/// The page of two logs.
pub fn two(months: &Pair<Month>) -> Result<String, Error> {
    let found = reconcile(&months.ours.log, &months.theirs.log)?;
    let Pair { ours, theirs } =
        months.map(|month| String::from_utf8_lossy(month.title()).into_owned());
    let (title, header) = (
        escaped(&format!("{ours} and {theirs}")),
        header(months, &found),
    );
    let Some(comparison) = &found.moved else {
        return Ok(html::page(&title, &header, &[], false));
    };
    let (times, Pair { ours, theirs }) = (months.ours.times(), &found.calls);
    let calls = lists::alone(months, ours, "ours", "theirs")
        + &lists::alone(months, theirs, "theirs", "ours");
    let moved = lists::days(times, comparison) + &lists::spans(times, comparison);
    let parts = [
        ("slots", "Slots", slots(months, comparison)),
        ("calls", "Calls", calls),
        (
            "differ",
            "Slots that differ",
            lists::differing(months, comparison),
        ),
        ("moved", "Days and spans", moved),
        (
            "contents",
            "Other contents, equal outcomes",
            lists::behind(months, &found),
        ),
    ];
    Ok(html::page(&title, &header, &parts, months.ours.is_long()))
}
