//! The calls that were refused, conflicts first: line, call, number and words.

use super::super::reconcile::order_words;
use super::super::times::Times;
use super::html::{grouped, shell_word, shown, table};
use super::month::Month;
use sawmauve::{Answer, Call, Error, Head, Refusal};

/// The most calls that are listed.
const MOST: usize = 2_000;

/// A line of the log that was refused.
struct Refused<'a> {
    number: u64,
    line: &'a [u8],
    refusal: Refusal,
}

/// Conflicts first, then by line.
fn all<'a>(month: &Month<'a>) -> Vec<Refused<'a>> {
    let lines = (1..).zip(month.log.lines().zip(month.played.answers()));
    let mut refused: Vec<Refused> = lines
        .filter_map(|(number, (line, answer))| match answer {
            Answer::Refused(refusal) => Some(Refused {
                number,
                line,
                refusal,
            }),
            _ => None,
        })
        .collect();
    refused.sort_by_key(|call| (call.refusal != Refusal::Conflict, call.number));
    refused
}

/// The time that a call is about, where it lies in the book.
fn time(times: Times, head: Head, call: &Call) -> String {
    match *call {
        Call::Delivery { slot, .. } | Call::Agreed { slot, .. } if slot < head.slot_count() => {
            times.slot(slot)
        }
        Call::Holiday { day: at } if at < head.days => times.day(at),
        Call::Register { boundary, .. } if boundary <= head.days => times.day(boundary),
        _ => "outside the book".to_string(),
    }
}

fn row(month: &Month, refused: &Refused) -> Result<String, Error> {
    let Refused {
        number,
        line,
        refusal,
    } = refused;
    let call = Call::read(line)?.unwrap_or(Call::Nothing);
    let highest = month.played.book.version_of(&call) == call.version();
    Ok(format!(
        "<tr><td class=\"number\">{number}</td><td><code>{}</code></td><td>{}</td><td class=\"number\">{}</td><td>{}{}</td></tr>\n",
        shown(line.trim_ascii()),
        time(month.times(), month.head(), &call),
        refusal.number(),
        refusal.words(),
        order_words(*refusal, highest)
    ))
}

/// The table of the refused calls.
pub fn refused(month: &Month) -> Result<String, Error> {
    let all = all(month);
    if all.is_empty() {
        return Ok("<p>None: every call was accepted.</p>\n".to_string());
    }
    let rows = all.iter().take(MOST).map(|refused| row(month, refused));
    let rows = rows.collect::<Result<String, Error>>()?;
    let more = match all.len().saturating_sub(MOST) {
        0 => String::new(),
        more => format!(
            "<p>{} more: <code>sawmauve answers {} --refused</code></p>\n",
            grouped(more as u128),
            shell_word(month.name)
        ),
    };
    let columns = [
        ("Line", true),
        ("Call", false),
        ("About", false),
        ("Refused", true),
        ("Why", false),
    ];
    let caption = "Conflicts first. A refused call changes nothing.";
    Ok(table(caption, &columns, &rows) + &more)
}
