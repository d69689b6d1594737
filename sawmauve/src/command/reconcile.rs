//! `reconcile`: which calls one log accepted and the other did not, and what they moved.

use super::Verb;
use super::arguments::Arguments;
use super::compare::{both, two_names};
use super::differences::{self, OTHER_TIMES, pair_line};
use super::streams;
use super::times::Times;
use super::trouble::{Status, Trouble};
use sawmauve::{
    Behind, Call, Cell, Elsewhere, Head, Listed, Log, Pair, Reading, Reconciliation, Refusal,
    reconcile,
};
use std::ffi::OsStr;

pub const VERB: Verb = Verb {
    name: "reconcile",
    takes: "OURS.log THEIRS.log",
    about: "Lists the calls that one log accepted and the other did not, and what they moved",
    help: "\
Written are limit and tolerance where the heads differ in these, and the calls
that were accepted (stored, late or repeat) in one log and not in the other, by
line number, each with slot, date and time, version and content; whether it
stands in its cell or was superseded by a higher version; and where the other
log has it refused, that answer. A conflict (10) at the highest version of a
cell is when order matters. Then what they moved: the slots and spans whose
outcome differs, as `compare` writes them. Then the slots and readings that
differ although the outcomes are equal: nobody looks closer at an equality.

Where nothing is listed and the heads are the same the files are equal: under
one head equal accepted calls give equal files, in whatever order and however
often (part 4 of the claim). Where no call of one log is answered 10, every log
with the same calls under that head gives the same file (part 5). Where first
day, days or interval differ the slots are other times: that is written, and
nothing else.

Status 0 where nothing is listed, 1 where something is.
",
    options: &[],
    run,
};

fn head_lines(heads: &Pair<Head>) -> String {
    let mut text = pair_line("first day", heads.map(Head::first).differing());
    text += &pair_line("days", heads.map(|head| head.days).differing());
    text += &pair_line("interval", heads.map(|head| head.interval).differing());
    text += &pair_line("limit", heads.map(|head| head.limit).differing());
    text + &pair_line("tolerance", heads.map(|head| head.tolerance).differing())
}

/// A call with its date and time, version and content.
pub fn call_words(times: Times, call: Call) -> String {
    match call {
        Call::Delivery {
            slot,
            version,
            value,
            status,
        } => {
            let time = times.slot(slot);
            format!("delivery, slot {slot}, {time}, version {version}, {value} Wh, status {status}")
        }
        Call::Agreed {
            slot,
            version,
            value,
        } => {
            let time = times.slot(slot);
            format!("agreed, slot {slot}, {time}, version {version}, {value} Wh")
        }
        Call::Holiday { day } => format!("holiday, day {day}, {}", times.day(day)),
        Call::Register {
            boundary,
            version,
            reading,
            width,
        } => {
            let date = times.day(boundary);
            format!(
                "register, boundary {boundary}, {date}, version {version}, reading {reading}, width {width}"
            )
        }
        Call::Nothing | Call::Limits | Call::Opening { .. } => String::new(),
    }
}

pub fn line_words(lines: &[u64]) -> String {
    let numbers: Vec<String> = lines.iter().map(u64::to_string).collect();
    let noun = if numbers.len() == 1 { "line" } else { "lines" };
    format!("{noun} {}", numbers.join(", "))
}

/// A conflict decides by order where no higher version came.
pub fn order_words(refusal: Refusal, highest: bool) -> &'static str {
    match (refusal, highest) {
        (Refusal::Conflict, true) => " at the highest version of its cell: order matters",
        (Refusal::Conflict, false) => " below the highest version of its cell",
        _ => "",
    }
}

/// What the other log answered.
pub fn elsewhere_words(refused: Elsewhere, other: &str) -> String {
    let Elsewhere {
        line,
        refusal,
        highest,
    } = refused;
    let (number, order) = (refusal.number(), order_words(refusal, highest));
    format!("{other} line {line}: refused {number}{order}")
}

/// Whether a call stands in its cell.
pub fn stands_words(listed: &Listed) -> String {
    match listed.cell {
        Some(version) if !listed.stands() => format!("superseded by version {version}"),
        _ => "stands".to_string(),
    }
}

fn listed_line(times: Times, listed: &Listed, other: &str) -> String {
    let (lines, call) = (line_words(&listed.lines), call_words(times, listed.call));
    let refused = listed
        .refused
        .map(|refused| format!("    {}\n", elsewhere_words(refused, other)));
    format!(
        "  {lines}: {call}: {}\n{}",
        stands_words(listed),
        refused.unwrap_or_default()
    )
}

/// The calls that one side alone accepted.
fn side_lines(times: Times, side: &str, other: &str, calls: &[Listed]) -> String {
    if calls.is_empty() {
        return String::new();
    }
    let mut text = format!("accepted in {side} alone: {}\n", calls.len());
    text.extend(calls.iter().map(|call| listed_line(times, call, other)));
    text
}

pub fn cell_words(cell: &Cell) -> String {
    let mut text = match cell.version {
        0 => "nothing came".to_string(),
        version => format!(
            "version {version}, {} Wh, status {}",
            cell.value, cell.status
        ),
    };
    if cell.agreed_version != 0 {
        text += &format!(
            ", agreed version {}, {} Wh",
            cell.agreed_version, cell.agreed
        );
    }
    text
}

pub fn reading_words(cell: &Reading) -> String {
    match cell.version {
        0 => "nothing came".to_string(),
        version => format!(
            "version {version}, reading {}, width {}",
            cell.reading, cell.width
        ),
    }
}

/// What differs although the outcomes are equal.
fn behind_lines(times: Times, found: &Reconciliation) -> String {
    if found.slots.is_empty() && found.readings.is_empty() {
        return String::new();
    }
    let mut text = "other contents, equal outcomes:\n".to_string();
    for Behind { at, cells } in &found.slots {
        let (time, Pair { ours, theirs }) = (times.slot(*at), cells.map(cell_words));
        text += &format!("  slot {at}, {time}: ours {ours}; theirs {theirs}\n");
    }
    for Behind { at, cells } in &found.readings {
        let (date, Pair { ours, theirs }) = (times.day(*at), cells.map(reading_words));
        text += &format!("  boundary {at}, {date}: ours {ours}; theirs {theirs}\n");
    }
    text
}

fn lines(found: &Reconciliation) -> String {
    let heads = head_lines(&found.heads);
    let Some(moved) = &found.moved else {
        return heads + OTHER_TIMES;
    };
    if found.is_empty() {
        return "nothing to list: one head, the same accepted calls, equal files\n".to_string();
    }
    let times = Times::of(&moved.figures.ours);
    let mut text = heads + &side_lines(times, "ours", "theirs", &found.calls.ours);
    text += &side_lines(times, "theirs", "ours", &found.calls.theirs);
    text += &match moved.is_empty() {
        true => "moved: nothing, the files are equal\n".to_string(),
        false => format!("moved:\n{}", differences::lines(moved)),
    };
    text + &behind_lines(times, found)
}

fn run(arguments: &Arguments) -> Result<Status, Trouble> {
    let names = two_names(arguments, "two logs")?;
    let [ours, theirs] = names.map(streams::read);
    let bytes = both(ours, theirs)?;
    let log = |name: &OsStr, bytes| Log::read(bytes).map_err(|error| Trouble::refused(name, error));
    let logs = both(log(names[0], &bytes.ours), log(names[1], &bytes.theirs))?;
    let found = reconcile(&logs.ours, &logs.theirs);
    let found = found.map_err(|error| Trouble::refused(names[0], error))?;
    streams::write(lines(&found).as_bytes())?;
    Ok(match found.is_empty() {
        true => Status::Done,
        false => Status::No,
    })
}
