//! The lists of a page of two logs: what `reconcile` lists, as tables.

use super::super::differences::signed;
use super::super::reconcile::{
    call_words, cell_words, elsewhere_words, line_words, reading_words, stands_words,
};
use super::super::times::Times;
use super::cells::record_words;
use super::html::{grouped, shell_word, table};
use super::month::Month;
use super::spans::advance;
use sawmauve::{Behind, Comparison, Listed, Pair, Reconciliation, Slot, Span};
use std::fmt::Display;

/// The most rows of a list.
const MOST: usize = 2_000;

/// The anchor of the first slot that differs and is not listed.
const MORE: &str = "more-slots";

/// The first rows of a list, and how many more there are.
fn rows<T>(all: &[T], row: impl Fn(&T) -> String, more: &str) -> (String, String) {
    let rows = all.iter().take(MOST).map(row).collect();
    let left = match all.len().saturating_sub(MOST) {
        0 => String::new(),
        left => format!("<p>{} more: {more}</p>\n", grouped(left as u128)),
    };
    (rows, left)
}

/// The command that lists everything.
fn command(months: &Pair<Month>) -> String {
    let Pair { ours, theirs } = months.map(|month| shell_word(month.name));
    format!("<code>sawmauve reconcile {ours} {theirs}</code>")
}

/// The slots that differ and are listed, up to the last of them.
pub struct Listing {
    last: Option<u32>,
}

impl Listing {
    pub fn of(moved: &Comparison) -> Listing {
        let slots = moved.runs.iter().flat_map(|run| run.first..run.until());
        Listing {
            last: slots.take(MOST).last(),
        }
    }

    /// Where a slot that differs stands.
    pub fn anchor(&self, slot: u32) -> String {
        match self.last {
            Some(last) if slot <= last => format!("differ-{slot}"),
            _ => MORE.to_string(),
        }
    }
}

/// A row of the slots that differ.
fn slot_row(month: &Month, slot: u32, pair: &Pair<Slot>) -> String {
    let size = month.slots_per_cell();
    let side = |slot: &Slot| {
        format!(
            "<td class=\"number\">{}</td><td>{}</td>",
            grouped(slot.value),
            record_words(slot)
        )
    };
    let (Pair { ours, theirs }, values) = (pair.map(side), pair.map(|slot| u64::from(slot.value)));
    format!(
        "<tr id=\"differ-{slot}\"><th scope=\"row\"><a href=\"#slot-{}\">{}</a></th>{ours}{theirs}<td class=\"number\">{}</td></tr>\n",
        slot / size * size,
        month.times().slot(slot),
        signed(values.difference())
    )
}

/// Each slot that differs, with both records.
pub fn differing(months: &Pair<Month>, moved: &Comparison) -> String {
    let all = moved
        .runs
        .iter()
        .flat_map(|run| (run.first..).zip(&run.slots));
    let all: Vec<(u32, &Pair<Slot>)> = all.collect();
    if all.is_empty() {
        return "<p>None: both files have the same record of every slot.</p>\n".to_string();
    }
    let more = format!("<span id=\"{MORE}\">{}</span>", command(months));
    let (rows, more) = rows(
        &all,
        |(slot, pair)| slot_row(&months.ours, *slot, pair),
        &more,
    );
    let columns = [
        ("Slot", false),
        ("Ours, Wh", true),
        ("which is", false),
        ("Theirs, Wh", true),
        ("which is", false),
        ("Difference", true),
    ];
    table("A difference is ours minus theirs.", &columns, &rows) + &more
}

fn both_row(name: impl Display, sides: Pair<String>, more: &str) -> String {
    let Pair { ours, theirs } = sides;
    format!("<tr><th scope=\"row\">{name}</th><td>{ours}</td><td>{theirs}</td>{more}</tr>\n")
}

fn span_words(span: &Option<Span>) -> String {
    span.map_or_else(
        || "none".to_string(),
        |span| format!("{} {}", advance(&span), span.state),
    )
}

fn sums_row(name: String, sums: &Pair<u64>) -> String {
    let difference = format!("<td class=\"number\">{}</td>", signed(sums.difference()));
    both_row(
        name,
        sums.map(|sum| format!("{} Wh", grouped(*sum))),
        &difference,
    )
}

/// The days that have a slot which differs, and the sums of all days.
pub fn days(times: Times, moved: &Comparison) -> String {
    let days = moved.days.iter();
    let mut rows: String = days
        .map(|day| sums_row(times.day(day.day), &day.sums))
        .collect();
    rows += &sums_row("All days".to_string(), &moved.sums());
    let columns = [
        ("Day", false),
        ("Ours", false),
        ("Theirs", false),
        ("Difference", true),
    ];
    table(
        "The days that have a slot which differs, and the sums.",
        &columns,
        &rows,
    )
}

/// The spans that differ.
pub fn spans(times: Times, moved: &Comparison) -> String {
    let row = |pair: &Pair<Option<Span>>| {
        let span = pair.ours.or(pair.theirs)?;
        let name = format!("{} to {}", times.day(span.first), times.day(span.last));
        Some(both_row(name, pair.map(span_words), ""))
    };
    let rows: String = moved.spans.iter().filter_map(row).collect();
    let columns = [("Span", false), ("Ours", false), ("Theirs", false)];
    match rows.is_empty() {
        true => "<p>No span differs.</p>\n".to_string(),
        false => table(
            "The spans that differ: advance in Wh and state.",
            &columns,
            &rows,
        ),
    }
}

fn listed_row(times: Times, listed: &Listed, other: &str) -> String {
    let elsewhere = listed
        .refused
        .map(|refused| elsewhere_words(refused, other));
    format!(
        "<tr><td>{}</td><td>{}</td><td>{}</td><td>{}</td></tr>\n",
        line_words(&listed.lines),
        call_words(times, listed.call),
        stands_words(listed),
        elsewhere.unwrap_or_else(|| "not there".to_string())
    )
}

/// The calls that one side alone accepted.
pub fn alone(months: &Pair<Month>, calls: &[Listed], side: &str, other: &str) -> String {
    if calls.is_empty() {
        return format!("<p>No call was accepted in {side} alone.</p>\n");
    }
    let times = months.ours.times();
    let (rows, more) = rows(
        calls,
        |call| listed_row(times, call, other),
        &command(months),
    );
    let columns = [
        ("Line", false),
        ("Call", false),
        ("In its cell", false),
        ("In the other log", false),
    ];
    table(
        &format!("Accepted in {side} alone: {}", grouped(calls.len() as u128)),
        &columns,
        &rows,
    ) + &more
}

/// What differs although the outcomes are equal.
pub fn behind(months: &Pair<Month>, found: &Reconciliation) -> String {
    let times = months.ours.times();
    let slots =
        |Behind { at, cells }: &Behind<_>| both_row(times.slot(*at), cells.map(cell_words), "");
    let readings = |Behind { at, cells }: &Behind<_>| {
        both_row(
            format!("boundary {}", times.day(*at)),
            cells.map(reading_words),
            "",
        )
    };
    let (mut text, more) = rows(&found.slots, slots, &command(months));
    text.extend(found.readings.iter().map(readings));
    if text.is_empty() {
        return "<p>Where the outcomes are equal the contents are too.</p>\n".to_string();
    }
    let columns = [
        ("Slot or boundary", false),
        ("Ours", false),
        ("Theirs", false),
    ];
    table("Other contents with equal outcomes.", &columns, &text) + &more
}
