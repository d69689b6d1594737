//! Random logs: of random books, short ones of any calls, and logs with something done to them.

use crate::compare::calls::{Act, Book};
use crate::compare::heads;
use crate::compare::random;
use crate::compare::rng::Rng;
use crate::number::narrowed;
use crate::second::head::{DIAL, Head, MOST_LIMIT};
use crate::second::limits::MOST_PLACES;
use crate::second::lists::{Agreement, Delivery, RegisterRead};

/// A log, line by line, each with its end.
pub type Lines = Vec<Vec<u8>>;

pub const MOST: u32 = u32::MAX;

// Whole logs

/// The log of a random book; one whose head is out of bounds has its opening refused.
pub fn of_book(rng: &mut Rng, seed: u64, index: u64) -> Lines {
    let Book { head, calls, .. } = random::book(seed, index);
    let fillings: Vec<String> = calls
        .iter()
        .filter_map(|call| text(rng, call.act))
        .collect();
    whole(rng, head, fillings)
}

/// A few calls on a short book, so that many meet each other.
pub fn short(rng: &mut Rng) -> Lines {
    let days = rng.pick(&[1, 1, 1, 2, 3]);
    let interval = rng.pick(&[30, 30, 30, 15, 5]);
    let head = heads::random(rng, days, interval);
    let many = rng.pick(&[0, 1, 2, 5, 10, 20, 40]);
    let fillings = (0..many).map(|_| any_call(rng, head)).collect();
    whole(rng, head, fillings)
}

/// Exactly so many lines, most of them deliveries; the last is what it is given.
pub fn long(rng: &mut Rng, many: usize, last: &str) -> Vec<u8> {
    let head = heads::random(rng, 400, 5);
    let mut log = opening(rng, head).join("\n") + "\n";
    for i in log.lines().count()..many - 1 {
        log += &match i % 64 {
            0 => String::new(),
            1 => "# a comment".to_string(),
            2 => format!("agreed {} 1 {}", i % 115_200, i % 977),
            _ => format!(
                "delivery {} {} {} 0",
                i * 7 % 115_200,
                1 + i / 115_200,
                i % 3001
            ),
        };
        log.push('\n');
    }
    (log + last).into_bytes()
}

/// Table, opening and calls, with comments and empty lines among them, and their ends.
fn whole(rng: &mut Rng, head: Head, fillings: Vec<String>) -> Lines {
    let mut texts = opening(rng, head);
    texts.extend(fillings);
    let passed = rng.pick(&[0, 3, 10, 40]);
    let mut lines = Lines::new();
    let crs = rng.pick(&[0, 0, 1, 2, 5]);
    for text in texts {
        if rng.one_in(passed) {
            lines.push(self::passed(rng));
        }
        lines.push(text.into_bytes());
    }
    if rng.one_in(passed) {
        lines.push(self::passed(rng));
    }
    for line in &mut lines {
        let end: &[u8] = if rng.one_in(crs) { b"\r\n" } else { b"\n" };
        line.extend(end);
    }
    end_otherwise(rng, &mut lines);
    lines
}

/// The last line without its LF now and then, with a CR or without.
fn end_otherwise(rng: &mut Rng, lines: &mut Lines) {
    let Some(last) = lines.last_mut() else {
        return;
    };
    let end = last.len() - 1;
    match rng.below(6) {
        0 => last.truncate(end),
        1 => last[end] = b'\r',
        2 => lines.push(b"\r".to_vec()),
        _ => {}
    }
}

/// A comment or an empty line.
fn passed(rng: &mut Rng) -> Vec<u8> {
    let long = rng.pick(&[255, 255, 256, 256, 257, 700, 65_546]);
    let len = rng.pick(&[1, 1, 5, 30, long]);
    let noise = (0..len).map(|_| rng.pick(b"# abc,019\t\0\x7f\x80\xff\r"));
    let noise: Vec<u8> = noise.collect();
    match rng.below(3) {
        0 => Vec::new(),
        1 => b"# what came on Monday".to_vec(),
        _ => [b"#", &noise[1..]].concat(),
    }
}

/// A number as a log may have it: zeros before it now and then.
fn spelled(rng: &mut Rng, number: u32) -> String {
    let zeros = if rng.one_in(60) {
        rng.pick(&[1, 2, 9, 30])
    } else {
        0
    };
    format!("{}{number}", "0".repeat(zeros))
}

fn joined(rng: &mut Rng, keyword: &str, numbers: &[u32]) -> String {
    let numbers = numbers
        .iter()
        .map(|&number| format!(" {}", spelled(rng, number)));
    let numbers: String = numbers.collect();
    format!("{keyword}{numbers}")
}

/// A filling call's line; none for another call.
fn text(rng: &mut Rng, act: Act) -> Option<String> {
    let line = match act {
        Act::Deliver(Delivery {
            slot,
            version,
            value,
            status,
        }) => joined(rng, "delivery", &[slot, version, value, status]),
        Act::Agree(Agreement {
            slot,
            version,
            value,
        }) => joined(rng, "agreed", &[slot, version, value]),
        Act::Holiday { day } => joined(rng, "holiday", &[day]),
        Act::Register(RegisterRead {
            boundary,
            version,
            reading,
            width,
        }) => {
            let some = if width == 0 && rng.one_in(2) { 3 } else { 4 };
            joined(
                rng,
                "register",
                &[boundary, version, reading, width][..some],
            )
        }
        Act::Open | Act::Publish { .. } | Act::Write { .. } => return None,
    };
    Some(line)
}

/// A call of any numbers, often on one of the first slots.
fn any_call(rng: &mut Rng, head: Head) -> String {
    let (days, slots) = (head.days, 1440 / head.interval * head.days);
    let any = rng.word();
    let version = rng.pick(&[0, 1, 1, 1, 2, 2, 3, any, MOST]);
    let slot = rng.pick(&[0, 0, 1, 1, 2, slots - 1, slots, any % slots, any, MOST]);
    let value = rng.pick(&[0, 1, 1, 2, 500, any % 20_000, MOST]);
    match rng.below(7) {
        0..3 => {
            let status = rng.pick(&[0, 0, 0, 1, 2, 4, 7, 8, 255, 256, 263, 65_536, MOST]);
            joined(rng, "delivery", &[slot, version, value, status])
        }
        3 => {
            let value = rng.pick(&[value, value, DIAL - 1, DIAL, DIAL + 1]);
            joined(rng, "agreed", &[slot, version, value])
        }
        4 => {
            let day = rng.pick(&[0, 0, days - 1, days, any, MOST]);
            joined(rng, "holiday", &[day])
        }
        _ => {
            let boundary = rng.pick(&[0, 0, days, days, days + 1, any, MOST]);
            let reading = rng.pick(&[0, 1, 1, any % DIAL, DIAL - 1, DIAL, MOST]);
            let width = rng.pick(&[0, 0, 1, 9_999, 10_000, 65_536, 65_537, MOST]);
            let some = rng.pick(&[3, 4, 4]);
            joined(
                rng,
                "register",
                &[boundary, version, reading, width][..some],
            )
        }
    }
}

/// The opening, behind a table where there is one.
fn opening(rng: &mut Rng, head: Head) -> Vec<String> {
    let built_in = [40_000, 70_000]
        .iter()
        .position(|&limit| limit == head.limit);
    if let (Some(place), true) = (built_in, rng.one_in(2)) {
        return vec![opened(rng, head, narrowed::<u32>(place) + 1)];
    }
    let table = table(rng, head.limit);
    let place = table.iter().position(|&limit| limit == head.limit);
    let kind = narrowed::<u32>(place.expect("made with it")) + 1;
    vec![joined(rng, "limits", &table), opened(rng, head, kind)]
}

fn opened(rng: &mut Rng, head: Head, kind: u32) -> String {
    let date = format!("{:04}-{:02}-{:02}", head.year, head.month, head.day);
    let numbers = [head.days, head.interval, kind, head.tolerance];
    joined(rng, &format!("open {date}"), &numbers)
}

/// A table with this limit in it; the limit may be out of bounds.
fn table(rng: &mut Rng, limit: u32) -> Vec<u32> {
    let any = 1 + rng.below(MOST_PLACES);
    let many = rng.pick(&[1, 2, 3, MOST_PLACES, MOST_PLACES, any]);
    let mut table = vec![limit];
    while table.len() < many {
        let other = rng.between(1, MOST_LIMIT);
        if !table.contains(&other) {
            table.push(other);
        }
    }
    table.sort_unstable();
    table
}

// Damage

/// What is done to a log.
#[derive(Clone, Copy, Debug, PartialEq, Eq)]
pub enum Damage {
    Cut,
    Joined,
    Cr,
    Nul,
    Over127,
    AnyByte,
    ByteOut,
    ByteIn,
    Space,
    LineTwice,
    LineOut,
    LinesSwapped,
    Number,
    Stretched,
    Field,
    Keyword,
    Table,
    Opening,
}

impl Damage {
    pub const ALL: [(Damage, &str); 18] = [
        (Damage::Cut, "damage: cut"),
        (Damage::Joined, "damage: two lines joined"),
        (Damage::Cr, "damage: CR put in"),
        (Damage::Nul, "damage: NUL"),
        (Damage::Over127, "damage: byte over 127"),
        (Damage::AnyByte, "damage: another byte"),
        (Damage::ByteOut, "damage: byte taken out"),
        (Damage::ByteIn, "damage: byte put in"),
        (Damage::Space, "damage: one more space"),
        (Damage::LineTwice, "damage: line twice"),
        (Damage::LineOut, "damage: line taken out"),
        (Damage::LinesSwapped, "damage: lines swapped"),
        (Damage::Number, "damage: another number"),
        (Damage::Stretched, "damage: line stretched"),
        (Damage::Field, "damage: one field more or fewer"),
        (Damage::Keyword, "damage: another keyword"),
        (Damage::Table, "damage: another table"),
        (Damage::Opening, "damage: another opening"),
    ];

    /// The log after it; of no bytes there is nothing to damage.
    pub fn done(self, rng: &mut Rng, lines: Lines) -> Lines {
        let bytes = lines.concat();
        if bytes.is_empty() {
            return lines;
        }
        match self {
            Damage::Cut
            | Damage::Joined
            | Damage::Cr
            | Damage::Nul
            | Damage::Over127
            | Damage::AnyByte
            | Damage::ByteOut
            | Damage::ByteIn
            | Damage::Space => split(&self.in_bytes(rng, bytes)),
            _ => self.in_lines(rng, lines),
        }
    }

    fn in_bytes(self, rng: &mut Rng, mut bytes: Vec<u8>) -> Vec<u8> {
        let at = rng.below(bytes.len());
        let other = rng.byte();
        match self {
            Damage::Cut => bytes.truncate(at),
            Damage::Joined => {
                let ends = places(&bytes, |byte| byte == b'\n');
                if let Some(end) = picked(rng, &ends) {
                    bytes.remove(end);
                }
            }
            Damage::Cr => {
                let ends = places(&bytes, |byte| byte == b'\n');
                let at = picked(rng, &ends).filter(|_| !rng.one_in(4)).unwrap_or(at);
                bytes.insert(at, b'\r');
            }
            Damage::Nul => put(rng, &mut bytes, at, 0),
            Damage::Over127 => put(rng, &mut bytes, at, other | 0x80),
            Damage::AnyByte => bytes[at] = other,
            Damage::ByteOut => drop(bytes.remove(at)),
            Damage::ByteIn => {
                let byte = rng.pick(b"\n\n\r 0129#-+.xA\t\x0B\x0C\x1A");
                bytes.insert(at, byte);
            }
            _ => {
                let spaces = places(&bytes, |byte| byte.is_ascii_whitespace());
                let at = picked(rng, &spaces).unwrap_or(at);
                bytes.insert(at, b' ');
            }
        }
        bytes
    }

    fn in_lines(self, rng: &mut Rng, mut lines: Lines) -> Lines {
        let (at, other) = (rng.below(lines.len()), rng.below(lines.len()));
        match self {
            Damage::LineTwice => {
                let copy = lines[at].clone();
                let to = rng.pick(&[at, other, lines.len()]);
                lines.insert(to, copy);
            }
            Damage::LineOut => drop(lines.remove(at)),
            Damage::LinesSwapped => lines.swap(at, other),
            Damage::Number => with_number(rng, &mut lines[at]),
            Damage::Stretched => stretch(rng, &mut lines[at]),
            Damage::Field => another_field(rng, &mut lines[at]),
            Damage::Keyword => another_keyword(rng, &mut lines[at]),
            Damage::Table => another_table(rng, &mut lines),
            _ => another_opening(rng, &mut lines),
        }
        lines
    }
}

/// A log's lines with their ends.
pub fn split(log: &[u8]) -> Lines {
    let ended = log.split_inclusive(|&byte| byte == b'\n');
    ended.map(|line| line.to_vec()).collect()
}

/// A log's lines without their LF.
pub fn lines(log: &[u8]) -> impl Iterator<Item = &[u8]> {
    let ended = log.split_inclusive(|&byte| byte == b'\n');
    ended.map(|line| line.strip_suffix(b"\n").unwrap_or(line))
}

fn places(bytes: &[u8], wanted: impl Fn(u8) -> bool) -> Vec<usize> {
    (0..bytes.len()).filter(|&at| wanted(bytes[at])).collect()
}

fn picked(rng: &mut Rng, places: &[usize]) -> Option<usize> {
    (!places.is_empty()).then(|| rng.pick(places))
}

/// A byte in the place of one, or before it.
fn put(rng: &mut Rng, bytes: &mut Vec<u8>, at: usize, byte: u8) {
    if rng.one_in(2) {
        bytes[at] = byte;
    } else {
        bytes.insert(at, byte);
    }
}

/// A line's words, and its end.
fn taken_apart(line: &[u8]) -> (Vec<String>, Vec<u8>) {
    let end = line.iter().rev().take_while(|byte| b"\r\n".contains(byte));
    let (text, end) = line.split_at(line.len() - end.count());
    let text = String::from_utf8_lossy(text);
    (text.split(' ').map(String::from).collect(), end.to_vec())
}

fn put_together(words: &[String], end: &[u8]) -> Vec<u8> {
    [words.join(" ").as_bytes(), end].concat()
}

/// One number of the line at a bound, or none.
fn with_number(rng: &mut Rng, line: &mut Vec<u8>) {
    let (mut words, end) = taken_apart(line);
    if words.len() < 2 {
        return;
    }
    let other = rng.pick(&[
        "4294967295",
        "4294967295",
        "4294967296",
        "4294967296",
        "04294967295",
        "0000000000000000000004294967296",
        "9999999999",
        "10000000000",
        "18446744073709551616",
        "99999999999999999999999999999999999999999",
        "0",
        "00",
        "000000000000000000000000000000000000000007",
        "",
        "+1",
        "-1",
        "1.0",
        "1e3",
        "0x1",
        "1_000",
        "1,000",
    ]);
    let at = 1 + rng.below(words.len() - 1);
    words[at] = other.to_string();
    *line = put_together(&words, &end);
}

/// A line of about 255 bytes: of a call by zeros before a number, of any other by what is there.
fn stretch(rng: &mut Rng, line: &mut Vec<u8>) {
    let (mut words, end) = taken_apart(line);
    let wanted = rng.pick(&[254, 255, 255, 255, 256, 256, 256, 257, 300, 65_546]);
    let missing = usize::saturating_sub(wanted, words.join(" ").len());
    let at = rng.below(words.len());
    let at = if words.len() > 1 { at.max(1) } else { 0 };
    words[at].insert_str(0, &"0".repeat(missing));
    if words[0].starts_with("00") {
        words[0].replace_range(..1, "#");
    }
    *line = put_together(&words, &end);
}

fn another_field(rng: &mut Rng, line: &mut Vec<u8>) {
    let (mut words, end) = taken_apart(line);
    if rng.one_in(2) {
        words.pop();
    } else {
        words.push("1".to_string());
    }
    *line = put_together(&words, &end);
}

/// The line's own keyword otherwise, or another.
fn another_keyword(rng: &mut Rng, line: &mut Vec<u8>) {
    let (mut words, end) = taken_apart(line);
    let own = &mut words[0];
    match rng.below(6) {
        0 => *own = own.to_uppercase(),
        1 => own
            .get_mut(..1)
            .into_iter()
            .for_each(str::make_ascii_uppercase),
        2 => own.push('s'),
        3 => drop(own.pop()),
        _ => {
            let others = [
                "delivery", "agreed", "holiday", "register", "open", "limits", "publish",
            ];
            *own = rng.pick(&others).to_string();
        }
    }
    *line = put_together(&words, &end);
}

/// A table before all, in the place of the one there is, or at any place.
fn another_table(rng: &mut Rng, lines: &mut Lines) {
    let is_table = |line: &Vec<u8>| line.starts_with(b"limits");
    if !rng.one_in(5) {
        lines.retain(|line| !is_table(line));
    }
    let rising = |rng: &mut Rng, many: u32| -> Vec<u32> {
        let step = rng.between(1, 40_000);
        (1..=many).map(|i| i * step).collect()
    };
    let any = rng.between(1, MOST_LIMIT);
    let table = match rng.below(12) {
        0 => vec![],
        1 | 2 => rising(rng, 1),
        3 | 4 => rising(rng, 24),
        5 | 6 => rising(rng, 25),
        7 => vec![0, any],
        8 => vec![any, any],
        9 => vec![40_000, 70_000, any, 69_999],
        10 => vec![40_000, MOST_LIMIT, MOST_LIMIT + 1],
        _ => vec![1, 40_000, 70_000, any.max(70_001), MOST_LIMIT + 1],
    };
    let line = joined(rng, "limits", &table) + "\n";
    let any = rng.below(lines.len() + 1);
    let at = rng.pick(&[0, 0, 0, any]);
    lines.insert(at, line.into_bytes());
}

/// Words of an opening by their places: at a bound, over it, or of another form.
const OTHER_WORDS: [(usize, &str); 24] = [
    (1, "2001-02-29"),
    (1, "2024-13-01"),
    (1, "2024-00-01"),
    (1, "1999-12-31"),
    (1, "2100-01-01"),
    (1, "2099-12-31"),
    (1, "0000-00-00"),
    (1, "9999-99-99"),
    (1, "2024-5-01"),
    (1, "2024-05-1"),
    (1, "24-05-01"),
    (1, "2024/05/01"),
    (1, "20240501"),
    (1, "02024-05-01"),
    (1, "2024-05-001"),
    (2, "0"),
    (2, "401"),
    (3, "10"),
    (4, "0"),
    (4, "3"),
    (4, "25"),
    (4, "4294967295"),
    (5, "1000000"),
    (5, "1000001"),
];

/// An opening with one thing other, now and then as a second one.
fn another_opening(rng: &mut Rng, lines: &mut Lines) {
    let opening = lines.iter().position(|line| line.starts_with(b"open "));
    let Some(at) = opening else {
        return;
    };
    let (mut words, end) = taken_apart(&lines[at]);
    if words.len() != 6 {
        return;
    }
    let (place, other) = rng.pick(&OTHER_WORDS);
    words[place] = other.to_string();
    let line = put_together(&words, &end);
    if rng.one_in(4) {
        lines.insert(at + 1, line);
    } else {
        lines[at] = line;
    }
}
