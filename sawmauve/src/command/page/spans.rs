//! The spans between two readings of the dial: dates, advance, measured sum, state, and what was shared out.

use super::cells::is_fitted;
use super::html::{counted, grouped, table};
use super::month::Month;
use sawmauve::{Error, Span, State};

const CAPTION: &str = "From 00:00 of one date to 00:00 of the other. The measured sum has what was measured and what was agreed.";

/// A span's state in words.
fn state_words(state: State) -> String {
    let more = match state {
        State::Agrees => "the measured sum is what the dial says",
        State::Scaled => "what was filled is fitted to the dial",
        State::Open => "a slot is missing, nothing is fitted",
        State::Disagrees => "the measured sum is not what the dial says",
    };
    format!("<b>{state}</b>: {more}")
}

/// The advance in Wh, or its range.
pub fn advance(span: &Span) -> String {
    match span.lowest == span.highest {
        true => grouped(span.lowest),
        false => format!("{} to {}", grouped(span.lowest), grouped(span.highest)),
    }
}

/// What was shared out over the fitted slots of a span, which begins at this slot.
fn shared(month: &Month, span: &Span, begin: u32) -> Result<String, Error> {
    let end = span.last * month.head().slots_per_day();
    let slots = month
        .slots()
        .get(begin as usize..end as usize)
        .unwrap_or(&[]);
    let Some((slot, _)) = (begin..).zip(slots).find(|(_, slot)| is_fitted(slot)) else {
        return Ok("nothing".to_string());
    };
    let told = month.played.book.explain(slot)?;
    let total = told.shares.map_or(0, |shares| shares.t);
    let count = slots.iter().filter(|slot| is_fitted(slot)).count();
    Ok(format!(
        "{} Wh over {}",
        grouped(total),
        counted(count, "slot", "slots")
    ))
}

fn row(month: &Month, span: &Span) -> Result<String, Error> {
    let (begin, times) = (span.first * month.head().slots_per_day(), month.times());
    let held = month.played.book.explain(begin)?.span;
    let measured = held.map_or_else(String::new, |held| grouped(held.actual));
    Ok(format!(
        "<tr><th scope=\"row\">{}</th><td>{}</td><td class=\"number\">{}</td>\
         <td class=\"number\">{measured}</td><td>{}</td><td>{}</td></tr>\n",
        times.day(span.first),
        times.day(span.last),
        advance(span),
        state_words(span.state),
        shared(month, span, begin)?
    ))
}

/// The table of the spans.
pub fn spans(month: &Month) -> Result<String, Error> {
    let rows: Result<String, Error> = month
        .file
        .spans()
        .iter()
        .map(|span| row(month, span))
        .collect();
    let rows = rows?;
    if rows.is_empty() {
        return Ok(
            "<p>None: a span lies between two boundaries at which the dial was read.</p>\n"
                .to_string(),
        );
    }
    let columns = [
        ("From", false),
        ("Until", false),
        ("Advance, Wh", true),
        ("Measured sum, Wh", true),
        ("State", false),
        ("Shared out", false),
    ];
    Ok(table(CAPTION, &columns, &rows))
}
