//! What differs between two files, as CSV.

use super::times::{Times, date};
use sawmauve::{Comparison, Differing, Pair, Slot, Span};

const HEADER: &str = "what,from,until,\
    ours,ours highest,ours quality or state,ours method,\
    theirs,theirs highest,theirs quality or state,theirs method,difference Wh\n";

/// A line: what it is about, both sides in four fields each, and the difference.
fn row(what: &str, from: &str, until: &str, sides: Pair<String>, difference: &str) -> String {
    let Pair { ours, theirs } = sides;
    format!("{what},{from},{until},{ours},{theirs},{difference}\n")
}

/// The line of a figure that differs.
fn figure_row<T: ToString>(what: &str, pair: Option<Pair<T>>) -> String {
    pair.map_or_else(String::new, |pair| {
        let sides = pair.map(|figure| format!("{},,,", figure.to_string()));
        row(what, "", "", sides, "")
    })
}

fn sum_row(what: &str, from: &str, until: &str, sums: Pair<u64>) -> String {
    let sides = sums.map(|sum| format!("{sum},,,"));
    row(what, from, until, sides, &sums.difference().to_string())
}

fn figure_rows(found: &Comparison) -> String {
    let first = found.figure(|figures| date(figures.first, 0));
    let mut text = figure_row("layout", found.figure(|figures| figures.layout));
    text += &figure_row("first day", first);
    text += &figure_row("days", found.figure(|figures| figures.days));
    text + &figure_row("interval", found.figure(|figures| figures.interval))
}

fn span_side(span: &Option<Span>) -> String {
    span.map_or_else(
        || ",,,".to_string(),
        |span| format!("{},{},{},", span.lowest, span.highest, span.state),
    )
}

fn span_row(times: Times, spans: &Pair<Option<Span>>) -> Option<String> {
    let span = spans.ours.or(spans.theirs)?;
    let (from, until) = (times.day(span.first), times.day(span.last));
    Some(row("span", &from, &until, spans.map(span_side), ""))
}

fn slot_row(times: Times, slot: u32, pair: &Pair<Slot>) -> String {
    let side = |slot: &Slot| format!("{},,{},{}", slot.value, slot.quality, slot.method);
    let difference = pair.map(|slot| u64::from(slot.value)).difference();
    let (from, until) = (times.slot(slot), times.slot(slot + 1));
    row(
        "slot",
        &from,
        &until,
        pair.map(side),
        &difference.to_string(),
    )
}

fn run_rows(times: Times, run: &Differing) -> String {
    let (from, until) = (times.slot(run.first), times.slot(run.until()));
    let mut text = sum_row("run", &from, &until, run.sums());
    let slots = (run.first..).zip(&run.slots);
    text.extend(slots.map(|(slot, pair)| slot_row(times, slot, pair)));
    text
}

/// A line for each thing that differs after the header; of equal files the header alone.
pub fn rows(found: &Comparison) -> String {
    let mut text = HEADER.to_string();
    if found.is_empty() {
        return text;
    }
    let times = Times::of(&found.figures.ours);
    text += &figure_rows(found);
    text.extend(found.spans.iter().filter_map(|span| span_row(times, span)));
    text.extend(found.runs.iter().map(|run| run_rows(times, run)));
    for day in &found.days {
        let (from, until) = (times.day(day.day), times.day(day.day + 1));
        text += &sum_row("day", &from, &until, day.sums);
    }
    text + &sum_row("sum", "", "", found.sums())
}
