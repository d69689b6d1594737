//! `show`: 01's line of files, or their tables as CSV.

use super::Verb;
use super::arguments::{Arguments, Opt};
use super::streams;
use super::times::date;
use super::trouble::{Status, Trouble, refused_line, tell};
use sawmauve::{Error, File, Span, Time};
use std::ffi::{OsStr, OsString};
use std::os::unix::ffi::OsStrExt;

pub const VERB: Verb = Verb {
    name: "show",
    takes: "FILE.. [--slots | --spans]",
    about: "Writes the line of a file, or its tables as CSV",
    help: "\
Options:
  --slots   a line a slot: date, time, Wh, quality, method
  --spans   a line a span: the dates of its readings, lowest and highest advance
            in Wh, state

The line has first day, days, interval in minutes, counts of actual, substituted
(or agreed) and missing slots, and the sum in Wh; or refused N and why, and the
status is then 1. Of several files each line begins with the file's name.
",
    options: &[Opt("--slots", false), Opt("--spans", false)],
    run,
};

/// How a file is shown: a header line, and its lines, each after the name where there are several.
struct Form {
    header: &'static str,
    comma: bool,
    lines: fn(&File) -> Result<Vec<String>, Error>,
}

const LINE: Form = Form {
    header: "",
    comma: false,
    lines: line,
};
const SLOTS: Form = Form {
    header: "date,time,Wh,quality,method\n",
    comma: true,
    lines: slots,
};
const SPANS: Form = Form {
    header: "from,until,lowest,highest,state\n",
    comma: true,
    lines: spans,
};

fn line(file: &File) -> Result<Vec<String>, Error> {
    Ok(vec![String::from_utf8_lossy(&file.line()?).into_owned()])
}

fn slots(file: &File) -> Result<Vec<String>, Error> {
    let figures = file.figures();
    let in_day = figures.slots_per_day().max(1);
    let records = (0..).zip(file.slots());
    let lines = records.map(|(at, slot): (u32, _)| {
        let (day, time) = (
            date(figures.first, at / in_day),
            Time(at % in_day * figures.interval),
        );
        format!(
            "{day},{time},{},{},{}",
            slot.value, slot.quality, slot.method
        )
    });
    Ok(lines.collect())
}

fn spans(file: &File) -> Result<Vec<String>, Error> {
    let start = file.figures().first;
    let line = |span: &Span| {
        let (from, until) = (date(start, span.first), date(start, span.last));
        format!(
            "{from},{until},{},{},{}",
            span.lowest, span.highest, span.state
        )
    };
    Ok(file.spans().iter().map(line).collect())
}

/// A name as a field of CSV.
pub fn quoted(name: &OsStr) -> Vec<u8> {
    let bytes = name.as_bytes();
    if !bytes
        .iter()
        .any(|byte| matches!(byte, b',' | b'"' | b'\n' | b'\r'))
    {
        return bytes.to_vec();
    }
    let mut field = vec![b'"'];
    for byte in bytes {
        field.extend(if *byte == b'"' {
            &b"\"\""[..]
        } else {
            std::slice::from_ref(byte)
        });
    }
    field.push(b'"');
    field
}

/// What stands before each line of a file.
fn front(form: &Form, name: &OsStr, several: bool) -> Vec<u8> {
    match (several, form.comma) {
        (false, _) => Vec::new(),
        (true, true) => [&quoted(name)[..], b","].concat(),
        (true, false) => [name.as_bytes(), b": "].concat(),
    }
}

/// Adds a file's lines. A refused file is 01's line too; beside a table it is reported on standard error.
fn add(form: &Form, name: &OsStr, several: bool, out: &mut Vec<u8>) -> Result<Status, Trouble> {
    let shown = streams::read_file(name)?.and_then(|file| (form.lines)(&file));
    let front = front(form, name, several);
    let mut put = |line: String| out.extend([&front[..], line.as_bytes(), b"\n"].concat());
    match shown {
        Ok(lines) => {
            lines.into_iter().for_each(put);
            return Ok(Status::Done);
        }
        Err(error) if form.comma => tell(&refused_line(name, error)),
        Err(error) => put(error.to_string()),
    }
    Ok(Status::No)
}

fn form(arguments: &Arguments) -> Result<Form, Trouble> {
    match (arguments.has("--slots"), arguments.has("--spans")) {
        (true, true) => Err(arguments.usage("--slots and --spans exclude each other")),
        (true, false) => Ok(SLOTS),
        (false, true) => Ok(SPANS),
        (false, false) => Ok(LINE),
    }
}

fn run(arguments: &Arguments) -> Result<Status, Trouble> {
    let form = form(arguments)?;
    let names: &[OsString] = &arguments.words;
    if names.is_empty() {
        return Err(arguments.usage("wants a file"));
    }
    let several = names.len() > 1;
    let mut out = if several && form.comma {
        b"file,".to_vec()
    } else {
        Vec::new()
    };
    out.extend(form.header.as_bytes());
    let mut worst = Status::Done;
    for name in names {
        let status = add(&form, name, several, &mut out).unwrap_or_else(Trouble::tell);
        worst = worst.max(status);
    }
    streams::write(&out)?;
    Ok(worst)
}
