//! A log: the calls of one book as lines of text, one call a line; what it is, and its playing.

use crate::number::narrowed;
use crate::second::book::Filed;
use crate::second::head::Head;
use crate::second::limits::{self, MOST_PLACES};
use crate::second::lists::Lists;
use crate::second::refusal;

/// The longest line that is a call, without its CR.
pub const MOST_LINE: usize = 255;
/// The limits of a log without a table.
pub const LIMITS: [u32; 2] = [40_000, 70_000];

// Answers beside those of the calls.
pub const LATE: u8 = 100;
pub const REPEAT: u8 = 101;
pub const OPENING: u8 = 102;
pub const NO_CALL: u8 = 103;
pub const NO_OPENING: u8 = 104;
pub const NOT_A_CALL: u8 = 105;
pub const TABLE: u8 = 106;
pub const DELIVERY: u8 = 110;
pub const AGREED: u8 = 111;
pub const HOLIDAY: u8 = 112;
pub const REGISTER: u8 = 113;

/// How many figures a log has, and how many fields a line.
pub const FIGURES: usize = 9;
pub const FIELDS: usize = 7;

/// One line of a log.
#[derive(Clone, Debug, PartialEq, Eq)]
pub enum Line {
    /// Empty, or a comment.
    Passed,
    Limits(Vec<u32>),
    Opening(Opening),
    Filling(Filling),
}

#[derive(Clone, Copy, Debug, PartialEq, Eq)]
pub struct Opening {
    pub date: [u32; 3],
    pub days: u32,
    pub interval: u32,
    /// A place in the limits, from 1.
    pub kind: u32,
    pub tolerance: u32,
}

/// A filling call's numbers, in the order of the log.
#[derive(Clone, Copy, Debug, PartialEq, Eq, PartialOrd, Ord)]
pub enum Filling {
    /// Slot, version, value, status.
    Delivery([u32; 4]),
    /// Slot, version, value.
    Agreed([u32; 3]),
    Holiday(u32),
    /// Boundary, version, reading, width.
    Register([u32; 4]),
}

/// What a log amounts to before it is played.
#[derive(Clone, Debug, PartialEq, Eq)]
pub struct Log {
    pub head: Head,
    pub lines: usize,
    /// The opening's line, from 0.
    pub opened: usize,
    /// The filling calls in order, each with its line from 0.
    pub calls: Vec<(usize, Filling)>,
}

/// What is no log: the answer, and the line that decides, from 1; 0 where only the opening
/// is missing.
#[derive(Clone, Copy, Debug, PartialEq, Eq)]
pub struct Fault {
    pub answer: u8,
    pub line: usize,
}

/// One line without its LF; one CR at its end is dropped. None where it is no line of a log.
pub fn line(line: &[u8]) -> Option<Line> {
    // An LF would end it, but in a comment.
    let whole = line.starts_with(b"#") || !line.contains(&b'\n');
    first(line).filter(|_| whole).map(|(line, _)| line)
}

/// The line that a text begins with, and what comes after its end. None where it is no line of
/// a log.
fn first(text: &[u8]) -> Option<(Line, &[u8])> {
    if let Some(after) = ended(text) {
        return Some((Line::Passed, after));
    }
    if text.starts_with(b"#") {
        let end = text.iter().position(|&byte| byte == b'\n');
        return Some((Line::Passed, &text[end.map_or(text.len(), |at| at + 1)..]));
    }
    let (line, rest) = call(text)?;
    let after = ended(rest)?;
    (text.len() - rest.len() <= MOST_LINE).then_some((line, after))
}

/// What comes after a line's end: LF or the end of the text, a CR before it or not.
fn ended(text: &[u8]) -> Option<&[u8]> {
    let text = text.strip_prefix(b"\r").unwrap_or(text);
    if text.is_empty() {
        return Some(text);
    }
    text.strip_prefix(b"\n")
}

/// The call that a text begins with, and what comes after it.
fn call(text: &[u8]) -> Option<(Line, &[u8])> {
    if let Some(rest) = text.strip_prefix(b"delivery") {
        let (call, rest) = numbers(rest)?;
        return Some((Line::Filling(Filling::Delivery(call)), rest));
    }
    let (filling, rest) = if let Some(rest) = text.strip_prefix(b"agreed") {
        let (call, rest) = numbers(rest)?;
        (Filling::Agreed(call), rest)
    } else if let Some(rest) = text.strip_prefix(b"holiday") {
        let ([day], rest) = numbers(rest)?;
        (Filling::Holiday(day), rest)
    } else if let Some(rest) = text.strip_prefix(b"register") {
        register(rest)?
    } else if let Some(rest) = text.strip_prefix(b"open ") {
        return opening(rest);
    } else {
        return table(text.strip_prefix(b"limits")?);
    };
    Some((Line::Filling(filling), rest))
}

/// So many numbers, a space before each.
fn numbers<const N: usize>(mut text: &[u8]) -> Option<([u32; N], &[u8])> {
    let mut numbers = [0; N];
    for place in &mut numbers {
        (*place, text) = number(text.strip_prefix(b" ")?)?;
    }
    Some((numbers, text))
}

/// The number that a text begins with, and what comes after it.
fn number(text: &[u8]) -> Option<(u32, &[u8])> {
    let mut number: u64 = 0;
    let mut digits = 0;
    for &byte in text.iter().take_while(|byte| byte.is_ascii_digit()) {
        number = 10 * number + u64::from(byte - b'0');
        if number > u32::MAX.into() {
            return None;
        }
        digits += 1;
    }
    (digits > 0).then(|| (narrowed(number), &text[digits..]))
}

/// Three numbers, and a width where there is one.
fn register(text: &[u8]) -> Option<(Filling, &[u8])> {
    let ([boundary, version, reading], rest) = numbers(text)?;
    let ([width], rest) = if rest.starts_with(b" ") {
        numbers(rest)?
    } else {
        ([0], rest)
    };
    Some((Filling::Register([boundary, version, reading, width]), rest))
}

/// One to 24 numbers.
fn table(mut text: &[u8]) -> Option<(Line, &[u8])> {
    let mut table = Vec::new();
    while text.starts_with(b" ") {
        let ([limit], rest) = numbers(text)?;
        table.push(limit);
        text = rest;
    }
    let fits = (1..=MOST_PLACES).contains(&table.len());
    fits.then_some((Line::Limits(table), text))
}

/// A date and the four numbers behind it.
fn opening(text: &[u8]) -> Option<(Line, &[u8])> {
    let (date, rest) = text.split_first_chunk()?;
    let date = self::date(date)?;
    let ([days, interval, kind, tolerance], rest) = numbers(rest)?;
    let opening = Opening {
        date,
        days,
        interval,
        kind,
        tolerance,
    };
    Some((Line::Opening(opening), rest))
}

/// Four digits, two and two.
fn date(&[y1, y2, y3, y4, dash, m1, m2, dash2, d1, d2]: &[u8; 10]) -> Option<[u32; 3]> {
    let digits = [y1, y2, y3, y4, m1, m2, d1, d2];
    if (dash, dash2) != (b'-', b'-') || !digits.iter().all(u8::is_ascii_digit) {
        return None;
    }
    let [y1, y2, y3, y4, m1, m2, d1, d2] = digits.map(|digit| u32::from(digit - b'0'));
    let year = 1000 * y1 + 100 * y2 + 10 * y3 + y4;
    Some([year, 10 * m1 + m2, 10 * d1 + d2])
}

/// What the lines so far amount to.
#[derive(Default)]
struct Reader {
    table: Option<Vec<u32>>,
    /// The head, and the opening's line.
    opened: Option<(Head, usize)>,
    calls: Vec<(usize, Filling)>,
}

impl Reader {
    /// Takes the line of a number from 0, or answers why it is wrong.
    fn take(&mut self, at: usize, line: Line) -> Result<(), u8> {
        match line {
            Line::Filling(call) if self.opened.is_some() => self.calls.push((at, call)),
            Line::Passed => {}
            Line::Opening(opening) if self.opened.is_none() => {
                self.opened = Some((self.head(&opening)?, at));
            }
            Line::Limits(table) if self.opened.is_none() && self.table.is_none() => {
                limits::check(&table)?;
                self.table = Some(table);
            }
            _ => return Err(NOT_A_CALL),
        }
        Ok(())
    }

    fn head(&self, opening: &Opening) -> Result<Head, u8> {
        let table = self.table.as_deref().unwrap_or(&LIMITS);
        let [year, month, day] = opening.date;
        let head = Head {
            year,
            month,
            day,
            days: opening.days,
            interval: opening.interval,
            limit: limits::limit(table, opening.kind)?,
            tolerance: opening.tolerance,
        };
        head.shape().map(|_| head)
    }
}

/// The first line that is wrong decides; then whether there is an opening.
pub fn read(log: &[u8]) -> Result<Log, Fault> {
    let mut reader = Reader::default();
    let mut lines = 0;
    let mut rest = log;
    while !rest.is_empty() {
        let wrong = |answer| Fault {
            answer,
            line: lines + 1,
        };
        let (line, after) = first(rest).ok_or(wrong(NOT_A_CALL))?;
        reader.take(lines, line).map_err(wrong)?;
        lines += 1;
        rest = after;
    }
    let no_opening = Fault {
        answer: NO_OPENING,
        line: 0,
    };
    let (head, opened) = reader.opened.ok_or(no_opening)?;
    Ok(Log {
        head,
        lines,
        opened,
        calls: reader.calls,
    })
}

impl Log {
    /// Opens the lists and makes the calls; a refused call is an answer, and the log goes on.
    fn play(&self, lists: &mut Lists, answers: &mut [u8]) -> Result<(), u8> {
        if answers.len() != self.lines {
            return Err(refusal::LENGTH);
        }
        lists.open(self.head)?;
        answers.fill(NO_CALL);
        answers[self.opened] = OPENING;
        for &(line, call) in &self.calls {
            answers[line] = answer(self.made(lists, call));
        }
        Ok(())
    }

    fn made(&self, lists: &mut Lists, call: Filling) -> Result<Filed, u8> {
        let head = self.head;
        match call {
            Filling::Delivery(numbers) => lists.deliver(head, numbers.into()),
            Filling::Agreed(numbers) => lists.agree(head, numbers.into()),
            Filling::Holiday(day) => lists.holiday(head, day),
            Filling::Register(numbers) => lists.register(head, numbers.into()),
        }
    }
}

fn answer(made: Result<Filed, u8>) -> u8 {
    match made {
        Ok(Filed::Stored) => 0,
        Ok(Filed::Late) => LATE,
        Ok(Filed::Repeat) => REPEAT,
        Err(number) => number,
    }
}

// As the host is answered.

/// 0 and the figures, or the refusal; 2 for another number of figures goes first.
pub fn log_code(log: &[u8], figures: &mut [u64]) -> u32 {
    let Ok(figures) = <&mut [u64; FIGURES]>::try_from(figures) else {
        return refusal::LENGTH.into();
    };
    match read(log) {
        Ok(log) => {
            *figures = log.figures();
            0
        }
        Err(fault) => fault.answer.into(),
    }
}

impl Log {
    fn figures(&self) -> [u64; FIGURES] {
        let head = self.head;
        [
            head.year.into(),
            head.month.into(),
            head.day.into(),
            head.days.into(),
            head.interval.into(),
            head.limit.into(),
            head.tolerance.into(),
            self.lines as u64,
            self.calls.len() as u64,
        ]
    }
}

/// The line that is wrong, from 1; 0 where none is.
pub fn log_line_code(log: &[u8]) -> u64 {
    read(log).map_or_else(|fault| fault.line as u64, |_| 0)
}

/// 0 and the answers; or what is no log, and then 2 for lists or answers of another length.
pub fn play_code(log: &[u8], lists: &mut Lists, answers: &mut [u8]) -> u32 {
    let log = read(log).map_err(|fault| fault.answer);
    let played = log.and_then(|log| log.play(lists, answers));
    played.map_or_else(u32::from, |()| 0)
}

/// One line without its LF: what it is, and its numbers; 2 for another number of fields goes
/// first.
pub fn call_code(line: &[u8], fields: &mut [u32]) -> u32 {
    let Ok(fields) = <&mut [u32; FIELDS]>::try_from(fields) else {
        return refusal::LENGTH.into();
    };
    let Some(line) = self::line(line) else {
        return NOT_A_CALL.into();
    };
    *fields = line.fields();
    line.code().into()
}

impl Line {
    fn code(&self) -> u8 {
        match self {
            Line::Passed => NO_CALL,
            Line::Limits(_) => TABLE,
            Line::Opening(_) => OPENING,
            Line::Filling(Filling::Delivery(_)) => DELIVERY,
            Line::Filling(Filling::Agreed(_)) => AGREED,
            Line::Filling(Filling::Holiday(_)) => HOLIDAY,
            Line::Filling(Filling::Register(_)) => REGISTER,
        }
    }

    /// The call's numbers in order, zeros after them.
    fn fields(&self) -> [u32; FIELDS] {
        match *self {
            Line::Passed | Line::Limits(_) => [0; FIELDS],
            Line::Opening(opening) => opening.numbers(),
            Line::Filling(Filling::Delivery([a, b, c, d]) | Filling::Register([a, b, c, d])) => {
                [a, b, c, d, 0, 0, 0]
            }
            Line::Filling(Filling::Agreed([a, b, c])) => [a, b, c, 0, 0, 0, 0],
            Line::Filling(Filling::Holiday(day)) => [day, 0, 0, 0, 0, 0, 0],
        }
    }
}

impl Opening {
    fn numbers(&self) -> [u32; FIELDS] {
        let [year, month, day] = self.date;
        let Opening {
            days,
            interval,
            kind,
            tolerance,
            ..
        } = *self;
        [year, month, day, days, interval, kind, tolerance]
    }
}
