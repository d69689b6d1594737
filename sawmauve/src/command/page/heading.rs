//! The heading of a page: the book's name, dates, interval and limit, the published total, and how many slots are what.

use super::cells::{ALL, Kind};
use super::html::{counted, grouped, shown};
use super::month::Month;

/// The longest comment that is shown.
const MOST_LETTERS: usize = 300;

/// A key and its legend, with a count after it where there is one.
fn key(class: &str, letter: &str, words: &str) -> String {
    format!("<li><span class=\"key {class}\" aria-hidden=\"true\">{letter}</span> {words}</li>")
}

/// How many slots are what: the legend of the grid.
pub fn legend(month: &Month) -> String {
    let keys = ALL.map(|kind| {
        let count = month.slots().iter().filter(|slot| Kind::of(slot) == kind);
        let words = format!("<b>{}</b> {}", grouped(count.count() as u128), kind.words());
        key(kind.class(), kind.letter(), &words)
    });
    let slots = counted(month.slots().len(), "slot", "slots");
    format!(
        "<p class=\"lead\">Of {slots}:</p>\n<ul class=\"legend\">{}</ul>\n",
        keys.concat()
    )
}

/// The kinds alone, where two books share a grid.
pub fn kinds() -> String {
    let keys = ALL.map(|kind| key(kind.class(), kind.letter(), kind.words()));
    format!("<ul class=\"legend\">{}</ul>\n", keys.concat())
}

/// A fact of the heading; its words are HTML.
pub fn fact(name: &str, words: &str) -> String {
    format!("<div><dt>{name}</dt><dd>{words}</dd></div>")
}

/// First day, last day and number of days.
pub fn dates(month: &Month) -> String {
    let (days, times) = (month.head().days, month.times());
    let (first, last) = (times.day(0), times.day(days.saturating_sub(1)));
    let until = if first == last {
        String::new()
    } else {
        format!(" to {last}")
    };
    format!("{first}{until}, {}", counted(days as usize, "day", "days"))
}

/// What the book's head says.
pub fn facts(month: &Month) -> String {
    let head = month.head();
    let mut text = fact("Dates", &dates(month));
    text += &fact("Interval", &format!("{} minutes", head.interval));
    text += &fact("Demand limit", &format!("{} W", grouped(head.limit)));
    text + &fact("Tolerance", &format!("{} Wh", grouped(head.tolerance)))
}

/// The first line of the log, where it is a comment.
fn comment(month: &Month) -> String {
    let first = month
        .log
        .lines()
        .next()
        .and_then(|line| line.strip_prefix(b"#"));
    let Some(text) = first.map(|line| String::from_utf8_lossy(line.trim_ascii())) else {
        return String::new();
    };
    let text: String = text.chars().take(MOST_LETTERS).collect();
    format!("<p class=\"comment\">{}</p>\n", shown(text.as_bytes()))
}

pub fn heading(month: &Month) -> String {
    let total = format!("<b>{}</b> Wh", grouped(month.file.figures().sum));
    format!(
        "<h1>{}</h1>\n{}<dl class=\"facts\">{}{}</dl>\n{}",
        shown(month.title()),
        comment(month),
        fact("Published total", &total),
        facts(month),
        legend(month)
    )
}
