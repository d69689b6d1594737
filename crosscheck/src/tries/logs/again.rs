//! What a log is and its playing, once more, and what goes with them: what `log`, `moment` and
//! `line` are held against. Each line is taken apart as a text, the calls are the plain book's.

use std::sync::LazyLock;

use crate::compare::acceptance;
use crate::compare::plain::Plain;
use crate::number::narrowed;
use crate::second::book::Filed;
use crate::second::head::{Head, Shape};
use crate::second::lists::Lists;
use crate::tries::dates;

/// The lines, each with its CR where it has one.
pub fn lines(log: &[u8]) -> Vec<Vec<u8>> {
    let mut lines = Vec::new();
    let mut line = Vec::new();
    for &byte in log {
        if byte == 0x0A {
            lines.push(std::mem::take(&mut line));
        } else {
            line.push(byte);
        }
    }
    if !line.is_empty() {
        lines.push(line);
    }
    lines
}

/// What a line is, and its numbers; of a table, its limits.
fn taken(line: &[u8]) -> (u32, Vec<u32>) {
    let cr = line.last() == Some(&0x0D);
    let line = &line[..line.len() - usize::from(cr)];
    if line.is_empty() || line[0] == b'#' {
        return (103, Vec::new());
    }
    let Ok(text) = str::from_utf8(line) else {
        return (105, Vec::new());
    };
    let words: Vec<&str> = text.split(' ').collect();
    let code = match (words[0], words.len() - 1) {
        _ if text.len() > 255 => 105,
        ("delivery", 4) => 110,
        ("agreed", 3) => 111,
        ("holiday", 1) => 112,
        ("register", 3 | 4) => 113,
        ("limits", 1..=24) => 106,
        ("open", 5) => 102,
        _ => 105,
    };
    let (date, rest) = words[1..].split_at(usize::from(code == 102));
    let rest: Option<Vec<u32>> = rest.iter().map(|word| number(word)).collect();
    match (date.first().map_or(Some(Vec::new()), dated), rest) {
        (Some(date), Some(rest)) if code != 105 => (code, [date, rest].concat()),
        _ => (105, Vec::new()),
    }
}

fn all_digits(word: &str) -> bool {
    !word.is_empty() && word.bytes().all(|byte| byte.is_ascii_digit())
}

/// Of two numbers of ten digits the lower is the one that is first as a text.
fn number(word: &str) -> Option<u32> {
    let short = word.trim_start_matches('0');
    let fits = short.len() < 10 || (short.len() == 10 && short <= "4294967295");
    if !all_digits(word) || !fits {
        return None;
    }
    let digits = short.bytes().map(|byte| u32::from(byte - b'0'));
    Some(digits.fold(0, |number, digit| 10 * number + digit))
}

fn dated(word: &&str) -> Option<Vec<u32>> {
    let parts: Vec<&str> = word.split('-').collect();
    let lengths: Vec<usize> = parts.iter().map(|part| part.len()).collect();
    if lengths != [4, 2, 2] {
        return None;
    }
    parts.into_iter().map(number).collect()
}

/// A log's head, and what each of its lines is.
struct Whole {
    head: Head,
    lines: Vec<(u32, Vec<u32>)>,
}

/// A log, or the answer and the line that decides.
fn whole(log: &[u8]) -> Result<Whole, (u32, u64)> {
    let lines: Vec<_> = lines(log).iter().map(|line| taken(line)).collect();
    let mut table: Option<&[u32]> = None;
    let mut head = None;
    for ((code, numbers), n) in lines.iter().zip(1..) {
        match (code, head) {
            (103, _) | (110..=113, Some(_)) => {}
            (106, None) if table.is_none() => {
                if !table_good(numbers) {
                    return Err((13, n));
                }
                table = Some(numbers);
            }
            (102, None) => {
                let opened = opened(table.unwrap_or(&[40_000, 70_000]), numbers);
                head = Some(opened.ok_or((1, n))?);
            }
            _ => return Err((105, n)),
        }
    }
    let head = head.ok_or((104, 0))?;
    Ok(Whole { head, lines })
}

/// W5's rules of a table that has 1 to 24 limits.
fn table_good(table: &[u32]) -> bool {
    let rising = table.windows(2).all(|pair| pair[0] < pair[1]);
    rising && table.iter().all(|limit| (1..=1_000_000).contains(limit))
}

/// The head of an opening's seven numbers; none where it is refused, 1.
fn opened(table: &[u32], numbers: &[u32]) -> Option<Head> {
    let &[year, month, day, days, interval, kind, tolerance] = numbers else {
        return None;
    };
    let mut places = (1..).zip(table);
    let (_, &limit) = places.find(|&(place, _)| place == kind)?;
    let head = Head {
        year,
        month,
        day,
        days,
        interval,
        limit,
        tolerance,
    };
    head.shape().is_ok().then_some(head)
}

pub fn log(log: &[u8], figures: &mut [u64]) -> u32 {
    if figures.len() != 9 {
        return 2;
    }
    let Whole { head, lines } = match whole(log) {
        Ok(whole) => whole,
        Err((answer, _)) => return answer,
    };
    let calls = lines.iter().filter(|(code, _)| *code >= 110).count();
    let seven = [
        head.year,
        head.month,
        head.day,
        head.days,
        head.interval,
        head.limit,
        head.tolerance,
    ];
    figures[..7].copy_from_slice(&seven.map(u64::from));
    figures[7..].copy_from_slice(&[lines.len() as u64, calls as u64]);
    0
}

pub fn log_line(log: &[u8]) -> u64 {
    whole(log).map_or_else(|(_, line)| line, |_| 0)
}

pub fn play(log: &[u8], lists: &mut Lists, answers: &mut [u8]) -> u32 {
    let Whole { head, lines } = match whole(log) {
        Ok(whole) => whole,
        Err((answer, _)) => return answer,
    };
    let shape = head.shape().expect("a head of a log");
    if !lists.fit(&shape) || answers.len() != lines.len() {
        return 2;
    }
    let mut plain = Plain::default();
    for ((code, numbers), answer) in lines.iter().zip(answers) {
        *answer = match *code {
            102 => 102,
            110.. => filed(made(&mut plain, head, *code, numbers)),
            _ => 103,
        };
    }
    *lists = cells(&plain, &shape);
    0
}

fn made(plain: &mut Plain, head: Head, code: u32, numbers: &[u32]) -> Result<Filed, u8> {
    match (code, numbers) {
        (110, &[a, b, c, d]) => plain.deliver(head, [a, b, c, d].into()),
        (111, &[a, b, c]) => plain.agree(head, [a, b, c].into()),
        (112, &[day]) => plain.holiday(head, day),
        (113, &[a, b, c]) => plain.register(head, [a, b, c, 0].into()),
        (113, &[a, b, c, d]) => plain.register(head, [a, b, c, d].into()),
        _ => unreachable!("a filling call's numbers"),
    }
}

fn filed(made: Result<Filed, u8>) -> u8 {
    match made {
        Ok(Filed::Stored) => 0,
        Ok(Filed::Late) => 100,
        Ok(Filed::Repeat) => 101,
        Err(number) => number,
    }
}

/// The cells as the kept calls leave them.
fn cells(plain: &Plain, shape: &Shape) -> Lists {
    let mut lists = Lists::zeroed(shape.slots, shape.days);
    for slot in 0..shape.slots {
        let (value, version, status) = plain.slot(narrowed(slot));
        lists.values[slot] = value;
        lists.versions[slot] = version;
        lists.statuses[slot] = status;
        (lists.agreed[slot], lists.agreed_versions[slot]) = plain.agreed(narrowed(slot));
    }
    for day in 0..shape.days {
        lists.holidays[day] = plain.day(narrowed(day));
        lists.counts[day] = plain.count(narrowed(day), narrowed(shape.slots_a_day));
    }
    for boundary in 0..=shape.days {
        let (reading, version, width) = plain.boundary(narrowed(boundary));
        lists.readings[boundary] = reading;
        lists.read_versions[boundary] = version;
        lists.widths[boundary] = narrowed(width);
    }
    lists
}

pub fn call(line: &[u8], fields: &mut [u32]) -> u32 {
    if fields.len() != 7 {
        return 2;
    }
    let (code, numbers) = taken(line);
    if code == 105 {
        return 105;
    }
    fields.fill(0);
    if code != 106 {
        fields[..numbers.len()].copy_from_slice(&numbers);
    }
    code
}

// Dates

/// Every date from 2000-01-01 to 2099-12-31, walked day by day.
static CALENDAR: LazyLock<Vec<(u32, u32, u32)>> = LazyLock::new(|| {
    let walk = std::iter::successors(Some((2000, 1, 1)), |&date| Some(dates::next(date)));
    walk.take_while(|date| date.0 < 2100).collect()
});

/// The slots of the book's dates and their minutes, counted through.
pub fn slot(head: Head, [year, month, day]: [u32; 3], minute: u32) -> u32 {
    if head.shape().is_err() {
        return 100_000_001;
    }
    let book = CALENDAR
        .iter()
        .skip_while(|&&date| date != (head.year, head.month, head.day));
    let mut days = book.take(head.days as usize);
    match days.position(|&date| date == (year, month, day)) {
        Some(before) if minute < 1440 => (narrowed::<u32>(before) * 1440 + minute) / head.interval,
        _ => 100_000_003,
    }
}

pub fn date(number: u32) -> u32 {
    match CALENDAR.get(number as usize) {
        Some((year, month, day)) => format!("{year}{month:02}{day:02}")
            .parse()
            .expect("a number"),
        None => 100_000_003,
    }
}

pub fn line(file: &[u8], out: &mut [u8]) -> u64 {
    let figures = match acceptance::read(file) {
        Ok(figures) => figures,
        Err(number) => return number.into(),
    };
    let (year, month, day) = CALENDAR[narrowed::<usize>(figures.first_day)];
    let mut line = format!("{year}-{month:02}-{day:02}");
    let counts = [figures.actual, figures.substituted, figures.none];
    for number in [figures.days, figures.interval]
        .into_iter()
        .chain(counts)
        .chain([figures.sum])
    {
        line += &format!(" {number}");
    }
    if out.len() < line.len() {
        return 7;
    }
    for (byte, written) in line.bytes().zip(out) {
        *written = byte;
    }
    line.len() as u64
}
