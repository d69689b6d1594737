//! What differs between two files, in lines of text.

use super::times::{Times, date};
use sawmauve::{Comparison, Differing, Pair, Slot, Span};
use std::fmt::Display;

/// A difference in Wh with its sign.
pub fn signed(difference: i128) -> String {
    match difference {
        0 => "0 Wh".to_string(),
        _ => format!("{difference:+} Wh"),
    }
}

/// The line of what both sides have otherwise.
pub fn pair_line<T: Display>(name: &str, pair: Option<Pair<T>>) -> String {
    pair.map_or_else(String::new, |Pair { ours, theirs }| {
        format!("{name}: ours {ours}, theirs {theirs}\n")
    })
}

/// Told where the slots of two files or logs are other times.
pub const OTHER_TIMES: &str = "the slots are other times: no more is compared\n";

fn figure_lines(found: &Comparison) -> String {
    let first = found.figure(|figures| date(figures.first, 0));
    let mut text = pair_line("layout", found.figure(|figures| figures.layout));
    text += &pair_line("first day", first);
    text += &pair_line("days", found.figure(|figures| figures.days));
    text += &pair_line("interval", found.figure(|figures| figures.interval));
    if !found.is_of_same_times() {
        text += OTHER_TIMES;
    }
    text
}

fn span_words(span: Option<Span>) -> String {
    span.map_or_else(
        || "none".to_string(),
        |Span {
             lowest,
             highest,
             state,
             ..
         }| format!("{lowest} to {highest} {state}"),
    )
}

fn span_line(times: Times, spans: &Pair<Option<Span>>) -> Option<String> {
    let span = spans.ours.or(spans.theirs)?;
    let (from, until) = (times.day(span.first), times.day(span.last));
    let Pair { ours, theirs } = spans.map(|span| span_words(*span));
    Some(format!(
        "span {from} to {until}: advance ours {ours}, theirs {theirs}\n"
    ))
}

fn slot_words(slot: &Slot) -> String {
    format!("{} {} {}", slot.value, slot.quality, slot.method)
}

/// A run with its difference, and each of its slots.
fn run_lines(times: Times, run: &Differing) -> String {
    let (from, until) = (times.slot(run.first), times.slot(run.until()));
    let (count, difference) = (run.slots.len(), signed(run.sums().difference()));
    let slots = if count == 1 { "slot" } else { "slots" };
    let mut text = format!("{count} {slots} {from} to {until}: difference {difference}\n");
    for (slot, pair) in (run.first..).zip(&run.slots) {
        let Pair { ours, theirs } = pair.map(slot_words);
        text += &format!("  {}: ours {ours}, theirs {theirs}\n", times.slot(slot));
    }
    text
}

fn sum_line(name: &str, sums: Pair<u64>) -> String {
    let (Pair { ours, theirs }, difference) = (sums, signed(sums.difference()));
    format!("{name}: ours {ours} Wh, theirs {theirs} Wh, difference {difference}\n")
}

/// Spans, runs of slots, and the sums of their days.
fn outcome_lines(found: &Comparison) -> String {
    let times = Times::of(&found.figures.ours);
    let spans = found.spans.iter().filter_map(|span| span_line(times, span));
    let mut text: String = spans.collect();
    text.extend(found.runs.iter().map(|run| run_lines(times, run)));
    for day in &found.days {
        text += &sum_line(&format!("day {}", times.day(day.day)), day.sums);
    }
    text
}

/// All that differs, and the sums of both files.
pub fn lines(found: &Comparison) -> String {
    figure_lines(found) + &outcome_lines(found) + &sum_line("sum", found.sums())
}
