//! The way of a slot through the book, from the log's lines to its published record, in lines of text.

use super::times::date;
use sawmauve::{Answer, Call, Cell, Error, Explanation, Held, Log, Played, Refusal, Time};
use std::collections::HashMap;

/// A log that was played, and the lines of it that name the slots whose ways are asked for.
pub struct Ways<'a> {
    played: &'a Played,
    first: u32,
    lines: HashMap<u32, String>,
}

/// The slot with its times.
fn slot_line(played: &Played, first: u32, slot: u32) -> String {
    let head = played.book.head();
    let in_day = head.slots_per_day().max(1);
    let from = slot % in_day * head.interval;
    let (date, to) = (date(first, slot / in_day), Time(from + head.interval));
    format!("slot {slot}: {date} {} to {to}\n", Time(from))
}

/// The slot that a call names.
fn slot_of(call: &Call) -> Option<u32> {
    match *call {
        Call::Delivery { slot, .. } | Call::Agreed { slot, .. } => Some(slot),
        _ => None,
    }
}

/// The line of a call that names a slot.
fn call_line(number: u64, call: Call, answer: Answer) -> String {
    match call {
        Call::Delivery {
            version,
            value,
            status,
            ..
        } => format!(
            "line {number}: delivery version {version}, {value} Wh, status {status}: {answer}\n"
        ),
        Call::Agreed { version, value, .. } => {
            format!("line {number}: agreed version {version}, {value} Wh: {answer}\n")
        }
        _ => String::new(),
    }
}

/// The lines that name a slot which is asked for, by slot.
fn call_lines(
    log: &Log,
    played: &Played,
    asked: impl Fn(u32) -> bool,
) -> Result<HashMap<u32, String>, Error> {
    let mut lines: HashMap<u32, String> = HashMap::new();
    for (number, (line, answer)) in (1..).zip(log.lines().zip(played.answers())) {
        let Some(call) = Call::read(line)? else {
            continue;
        };
        if let Some(slot) = slot_of(&call).filter(|slot| asked(*slot)) {
            *lines.entry(slot).or_default() += &call_line(number, call, answer);
        }
    }
    Ok(lines)
}

fn cell_lines(cell: Cell) -> String {
    let Cell {
        version,
        value,
        status,
        agreed_version,
        agreed,
    } = cell;
    let mut text = match version {
        0 => "cell: nothing came\n".to_string(),
        _ => format!("cell: version {version}, {value} Wh, status {status}\n"),
    };
    if agreed_version != 0 {
        text += &format!("agreed: version {agreed_version}, {agreed} Wh\n");
    }
    text
}

/// The rule with its line or references.
fn rule_line(told: &Explanation, first: u32) -> String {
    let mut text = format!("rule: {}", told.rule);
    if let Some(line) = told.line {
        text += &format!(
            ", from {} to {}, slot {} of {}",
            line.left, line.right, line.place, line.length
        );
    }
    for reference in &told.references {
        text += &format!(", {} {}", date(first, reference.day), reference.value);
    }
    text + "\n"
}

fn span_line(span: Option<Held>, first: u32) -> String {
    let Some(span) = span else {
        return "span: none\n".to_string();
    };
    let Held {
        lowest,
        highest,
        advance,
        actual,
        state,
        ..
    } = span;
    let (from, to) = (date(first, span.first), date(first, span.last));
    format!(
        "span: {from} to {to}, advance {lowest} to {highest}, R {advance}, V {actual}, {state}\n"
    )
}

fn told_lines(told: &Explanation, first: u32) -> String {
    let mut text = format!("cause: {}\n", told.cause);
    text += &rule_line(told, first);
    text += &format!("filled: {}\n", told.filled);
    text += &span_line(told.span, first);
    if let Some(shares) = told.shares {
        text += &format!(
            "scaled: T {}, E {}, P {}, C {}\n",
            shares.t, shares.e, shares.p, shares.c
        );
    }
    text + &format!("published: {}\n", told.outcome)
}

impl<'a> Ways<'a> {
    /// Of the slots that are asked for; the log is gone through once.
    pub fn of(
        log: &Log,
        played: &'a Played,
        asked: impl Fn(u32) -> bool,
    ) -> Result<Ways<'a>, Error> {
        Ok(Ways {
            played,
            first: log.head().first().day_number().unwrap_or(0),
            lines: call_lines(log, played, asked)?,
        })
    }

    /// The text of one that was asked for.
    pub fn text(&self, slot: u32) -> Result<String, Error> {
        let book = &self.played.book;
        let told = book.explain(slot)?;
        let cell = book.cell(slot).ok_or(Error::Refused(Refusal::Place))?;
        let mut text = slot_line(self.played, self.first, slot);
        text += self.lines.get(&slot).map_or("", String::as_str);
        text += &cell_lines(cell);
        Ok(text + &told_lines(&told, self.first))
    }
}
