//! Compares the reading and the playing of logs, and what goes with them, with a restatement
//! and another build.

pub mod again;
pub mod texts;

use std::collections::BTreeSet;

use crate::compare::damage::Bases;
use crate::compare::heads;
use crate::compare::random;
use crate::compare::rng::Rng;
use crate::compare::shrink::shrink;
use crate::guard::Guarded;
use crate::number::{low_half, narrowed};
use crate::second::contents;
use crate::second::file;
use crate::second::head::{self, Head, LAST_DAY};
use crate::second::line;
use crate::second::lists::{List, Lists};
use crate::second::log::{self, FIELDS, FIGURES};
use crate::second::moment::{self, DAY_MINUTES};
use crate::tries::logs::texts::{Damage, Lines, MOST};
use crate::tries::{LISTS, Tally, hex, noise};

pub type Play = fn(&[u8], &mut Lists, &mut [u8]) -> u32;

/// The calls of one build.
#[derive(Clone, Copy)]
pub struct Logs {
    /// Log, figures.
    pub log: fn(&[u8], &mut [u64]) -> u32,
    pub log_line: fn(&[u8]) -> u64,
    /// Log, lists, answers.
    pub play: Play,
    /// Line, fields.
    pub call: fn(&[u8], &mut [u32]) -> u32,
    /// Head, date, minute.
    pub slot: fn(Head, [u32; 3], u32) -> u32,
    pub date: fn(u32) -> u32,
    /// File, output.
    pub line: fn(&[u8], &mut [u8]) -> u64,
}

pub const SECOND: Logs = Logs {
    log: log::log_code,
    log_line: log::log_line_code,
    play: log::play_code,
    call: log::call_code,
    slot: moment::slot_code,
    date: moment::date_code,
    line: line::line_code,
};

const RESTATED: Logs = Logs {
    log: again::log,
    log_line: again::log_line,
    play: again::play,
    call: again::call,
    slot: again::slot,
    date: again::date,
    line: again::line,
};

/// Writes nothing.
const NOTHING: Logs = Logs {
    log: |_, _| 0,
    log_line: |_| 0,
    play: |_, _, _| 0,
    call: |_, _| 0,
    slot: |_, _, _| 0,
    date: |_| 0,
    line: |_, _| 0,
};

pub const CLASSES: &[&str] = &[
    "log of a book",
    "log of a book of 400 days",
    "short log",
    "log of a million lines",
    "million and first line wrong",
    "each byte of a log damaged",
    "damage: cut",
    "damage: two lines joined",
    "damage: CR put in",
    "damage: NUL",
    "damage: byte over 127",
    "damage: another byte",
    "damage: byte taken out",
    "damage: byte put in",
    "damage: one more space",
    "damage: line twice",
    "damage: line taken out",
    "damage: lines swapped",
    "damage: another number",
    "damage: line stretched",
    "damage: one field more or fewer",
    "damage: another keyword",
    "damage: another table",
    "damage: another opening",
    "damaged, a log",
    "damaged, no log",
    "a log",
    "no log: 104",
    "no log: 105",
    "no log: 13",
    "no log: 1",
    "no bytes",
    "no call at all",
    "wrong: first line",
    "wrong: last line",
    "wrong: line over 255",
    "line ended by LF",
    "line ended by CR LF",
    "line ended by two CR and LF",
    "last line without LF",
    "last line without LF, with CR",
    "last line a CR alone",
    "empty line",
    "comment",
    "comment of 255 bytes",
    "comment of 256 bytes",
    "comment of 256 bytes with CR",
    "comment with a byte over 127",
    "call of 255 bytes",
    "call of 255 bytes and CR",
    "256 bytes that are no call",
    "256 bytes and CR that are no call",
    "65,546 bytes that are no call",
    "comment of 65,546 bytes",
    "number 4,294,967,295",
    "number 4,294,967,296",
    "number with leading zeros",
    "number over 2^64",
    "line with a NUL",
    "line with a byte over 127",
    "line with a CR inside",
    "line with a space at its end",
    "line with two spaces",
    "no table",
    "table of 1",
    "table of 24",
    "table of another number",
    "limits of no number",
    "limits of 25 numbers",
    "second table",
    "table after the opening",
    "second opening",
    "call before the opening",
    "register of 3 numbers",
    "register of 4 numbers",
    "line 102",
    "line 103",
    "line 105",
    "line 106",
    "line 110",
    "line 111",
    "line 112",
    "line 113",
    "delivery answered 0",
    "delivery answered 3",
    "delivery answered 4",
    "delivery answered 5",
    "delivery answered 10",
    "delivery answered 100",
    "delivery answered 101",
    "status over 255 answered 5",
    "agreed answered 0",
    "agreed answered 3",
    "agreed answered 4",
    "agreed answered 10",
    "agreed answered 12",
    "agreed answered 100",
    "agreed answered 101",
    "holiday answered 0",
    "holiday answered 3",
    "holiday answered 101",
    "register answered 0",
    "register answered 3",
    "register answered 4",
    "register answered 6",
    "register answered 10",
    "register answered 17",
    "register answered 100",
    "register answered 101",
    "2: values",
    "2: versions",
    "2: statuses",
    "2: holidays",
    "2: readings",
    "2: read versions",
    "2: agreed",
    "2: agreed versions",
    "2: counts",
    "2: widths",
    "2: one answer fewer",
    "2: one answer more",
    "2: no answers",
    "2: figures",
    "104 before 2",
    "105 before 2",
    "13 before 2",
    "1 before 2",
    "2: fields of a line",
    "2: fields of no line",
    "single line with LF",
    "single line of any bytes",
    "slot",
    "first slot of the book",
    "last slot of the book",
    "slot on 29 February",
    "slot refused 1",
    "slot: 1 before 3",
    "slot: day before the book",
    "slot: day after the book",
    "slot: no date",
    "slot: minute 1,439",
    "slot: minute 1,440",
    "slot: minute 4,294,967,295",
    "date of every day number",
    "day number over 36,524",
    "line of a file",
    "line of a file of layout 1",
    "line of a file of layout 2",
    "line of a file of layout 3",
    "line of a file over 65,536 bytes",
    "line of a damaged file",
    "line into its exact length",
    "line into more, bytes after it unchanged",
    "line refused 8",
    "line refused 9",
    "line refused 7: one byte short",
    "line refused 7: no byte",
    "line refused 7: another length",
    "8 before 7",
    "9 before 7",
];

/// Published files, for the line.
pub struct Files {
    seed: u64,
    small: Bases,
    large: Vec<Vec<u8>>,
}

impl Files {
    pub fn new(seed: u64) -> Files {
        let large = [(400, 30), (31, 5)].into_iter().zip(0..);
        let large = large.flat_map(|((days, interval), index)| {
            let file = random::file_of(Rng::new(seed ^ 0x106, index), days, interval);
            [contents::before(&file).expect("a published file"), file]
        });
        Files {
            seed,
            small: Bases::new(seed ^ 0x106, 40),
            large: large.collect(),
        }
    }
}

/// One try: which kind it is goes by its number.
pub fn one(
    files: &Files,
    rng: &mut Rng,
    index: u64,
    other: Option<Logs>,
    tally: &mut Tally,
) -> Result<(), String> {
    let mut check = Check { other, tally };
    match index {
        MILLION => return check.million(rng),
        DATES => return check.dates(rng),
        _ => {}
    }
    match index % 100 {
        2 => check.each_byte(rng),
        3 | 28 | 53 | 78 => check.book(rng, index / 25),
        _ => match index % 8 {
            0 => check.file_line(files, rng, index),
            1 => (0..8).try_for_each(|_| check.slot(rng)),
            2 => (0..20).try_for_each(|_| check.single_line(rng)),
            3 => check.short(rng),
            _ => check.damaged(rng),
        },
    }
}

/// The tries that are made once.
pub const MILLION: u64 = 0;
const DATES: u64 = 1;

struct Check<'a> {
    other: Option<Logs>,
    tally: &'a mut Tally,
}

/// Both others, by name.
fn others(other: Option<Logs>) -> impl Iterator<Item = (&'static str, Logs)> {
    let other = other.map(|other| ("other", other));
    [("restated", RESTATED)].into_iter().chain(other)
}

// Logs

/// What is lent otherwise than the log asks for.
#[derive(Clone, Copy, Debug, PartialEq, Eq)]
enum Lent {
    AsAsked,
    List(List, usize),
    Answers(usize),
    Figures(usize),
}

/// A log, and what the lists hold before.
#[derive(Clone, Debug)]
struct Question {
    log: Vec<u8>,
    lent: Lent,
    /// The seed of what is in lists, answers, figures and fields before a call.
    fill: u64,
}

/// What the calls leave.
#[derive(Clone, Debug, PartialEq, Eq)]
struct Answer {
    log: u32,
    figures: Vec<u64>,
    line: u64,
    played: u32,
    lists: Lists,
    answers: Vec<u8>,
    calls: Vec<(u32, [u32; FIELDS])>,
}

impl Question {
    /// Slots, days and lines that the log asks for; of no log, any.
    fn sizes(&self) -> (usize, usize, usize) {
        match log::read(&self.log) {
            Ok(log) => {
                let shape = log.head.shape().expect("a head of a log");
                (shape.slots, shape.days, log.lines)
            }
            Err(_) => (48, 1, texts::lines(&self.log).count()),
        }
    }

    fn asked(&self, side: Logs) -> Answer {
        let mut rng = Rng::new(self.fill, 0);
        let (slots, days, lines) = self.sizes();
        let mut lists = noisy_lists(&mut rng, slots, days);
        let mut answers = noise(&mut rng, lines);
        let mut figures = vec![u64::from(rng.word()); FIGURES];
        let unwritten = [rng.word(); FIELDS];
        match self.lent {
            Lent::AsAsked => {}
            Lent::List(list, len) => lists.resize(list, len),
            Lent::Answers(len) => answers.resize(len, 7),
            Lent::Figures(len) => figures.resize(len, 7),
        }
        let called = |line: &[u8]| {
            let mut fields = unwritten;
            ((side.call)(line, &mut fields), fields)
        };
        Answer {
            log: (side.log)(&self.log, &mut figures),
            line: (side.log_line)(&self.log),
            played: (side.play)(&self.log, &mut lists, &mut answers),
            calls: texts::lines(&self.log).map(called).collect(),
            figures,
            lists,
            answers,
        }
    }

    /// The answer, of all builds alike.
    fn answered(&self, other: Option<Logs>) -> Result<Answer, String> {
        let answer = self.asked(SECOND);
        for (name, side) in others(other) {
            if let Some(what) = answer.difference(&self.asked(side)) {
                return Err(format!("second and {name}, {what}"));
            }
        }
        let before = self.asked(NOTHING);
        let figures = answer.log != 0 && answer.figures != before.figures;
        let lists = answer.lists != before.lists || answer.answers != before.answers;
        let lines = answer.calls.iter().zip(&before.calls);
        let fields = |(one, before): (&(u32, _), &(u32, _))| one.0 == 105 && one.1 != before.1;
        if figures || (answer.played != 0 && lists) || lines.into_iter().any(fields) {
            return Err("refused, but changed".to_string());
        }
        Ok(answer)
    }

    /// A difference with a shorter log that still has one.
    fn shrunk(&self, what: String, other: Option<Logs>) -> String {
        let lines = texts::split(&self.log);
        let with = |lines: &[Vec<u8>]| Question {
            log: lines.concat(),
            ..self.clone()
        };
        let fewer = shrink(&lines, |lines| with(lines).answered(other).is_err());
        let short = with(&fewer);
        let last = short.answered(other).err().unwrap_or(what);
        let Question { log, lent, .. } = &short;
        format!(
            "{last}; lent {lent:?}; log of {} lines: {}",
            fewer.len(),
            log.escape_ascii()
        )
    }
}

/// Lists of any content.
fn noisy_lists(rng: &mut Rng, slots: usize, days: usize) -> Lists {
    fn words(rng: &mut Rng, len: usize) -> Guarded<u32> {
        (0..len).map(|_| rng.word()).collect()
    }
    fn halves(rng: &mut Rng, len: usize) -> Guarded<u16> {
        (0..len).map(|_| low_half(rng.word())).collect()
    }
    Lists {
        values: words(rng, slots),
        versions: words(rng, slots),
        statuses: noise(rng, slots).into(),
        holidays: noise(rng, days).into(),
        readings: words(rng, days + 1),
        read_versions: words(rng, days + 1),
        agreed: words(rng, slots),
        agreed_versions: words(rng, slots),
        counts: halves(rng, days),
        widths: halves(rng, days + 1),
    }
}

impl Answer {
    fn difference(&self, other: &Answer) -> Option<String> {
        if (self.log, self.line) != (other.log, other.line) {
            let (one, two) = ((self.log, self.line), (other.log, other.line));
            return Some(format!("log and line: {one:?} and {two:?}"));
        }
        if self.figures != other.figures {
            return Some(format!(
                "figures: {:?} and {:?}",
                self.figures, other.figures
            ));
        }
        if self.played != other.played {
            return Some(format!("played: {} and {}", self.played, other.played));
        }
        let at = (0..self.answers.len()).find(|&at| self.answers[at] != other.answers[at]);
        if let Some(at) = at {
            let (one, two) = (self.answers[at], other.answers[at]);
            return Some(format!("answer of line {}: {one} and {two}", at + 1));
        }
        let lists = self.lists.difference(&other.lists);
        lists.or_else(|| {
            let at = (0..self.calls.len()).find(|&at| self.calls[at] != other.calls[at])?;
            let (one, two) = (self.calls[at], other.calls[at]);
            Some(format!("call of line {}: {one:?} and {two:?}", at + 1))
        })
    }
}

impl Check<'_> {
    fn log(&mut self, rng: &mut Rng, log: Vec<u8>) -> Result<u32, String> {
        let mut question = Question {
            log,
            lent: Lent::AsAsked,
            fill: rng.word().into(),
        };
        if rng.one_in(4) {
            question.lend_otherwise(rng);
        }
        let answer = question.answered(self.other);
        let answer = answer.map_err(|what| question.shrunk(what, self.other))?;
        counted(&question, &answer, self.tally);
        Ok(answer.played)
    }

    fn million(&mut self, rng: &mut Rng) -> Result<(), String> {
        let log = texts::long(rng, 1_000_000, "holiday 399");
        self.log(rng, log.clone())?;
        self.tally.add("log of a million lines");
        self.log(rng, [&log[..], b"\nholiday 399 \n"].concat())?;
        self.tally.add("million and first line wrong");
        Ok(())
    }

    /// The log of a random book, of the shorter ones one in four with something done to it.
    fn book(&mut self, rng: &mut Rng, index: u64) -> Result<(), String> {
        let seed = rng.word().into();
        let mut lines = texts::of_book(rng, seed, index);
        let log = log::read(&lines.concat());
        let long = log.is_ok_and(|log| log.head.days == 400);
        self.tally.add_if(long, "log of a book of 400 days");
        if !long && rng.one_in(4) {
            lines = rng.pick(&Damage::ALL).0.done(rng, lines);
        }
        self.log(rng, lines.concat())?;
        self.tally.add("log of a book");
        Ok(())
    }

    fn short(&mut self, rng: &mut Rng) -> Result<(), String> {
        let log = texts::short(rng).concat();
        self.log(rng, log)?;
        self.tally.add("short log");
        Ok(())
    }

    /// A short log with one to three things done to it.
    fn damaged(&mut self, rng: &mut Rng) -> Result<(), String> {
        let mut lines: Lines = texts::short(rng);
        for _ in 0..rng.pick(&[1, 1, 1, 2, 3]) {
            let (damage, name) = rng.pick(&Damage::ALL);
            lines = damage.done(rng, lines);
            self.tally.add(name);
        }
        let played = self.log(rng, lines.concat())?;
        let no_log = ![0, 2].contains(&played);
        self.tally.add(if no_log {
            "damaged, no log"
        } else {
            "damaged, a log"
        });
        Ok(())
    }

    /// A log of few lines, cut at each byte and with each byte changed, taken out or put in.
    fn each_byte(&mut self, rng: &mut Rng) -> Result<(), String> {
        let mut log = texts::short(rng).concat();
        log.truncate(200);
        for at in 0..log.len() {
            self.log(rng, log[..at].to_vec())?;
            let (before, after) = (&log[..at], &log[at + 1..]);
            self.log(rng, [before, after].concat())?;
            for byte in *b"\n\r \0#09\xFF" {
                self.log(rng, [before, &[byte], after].concat())?;
                self.log(rng, [before, &[byte], &log[at..]].concat())?;
            }
        }
        self.tally.add("each byte of a log damaged");
        Ok(())
    }
}

impl Question {
    /// One list, the answers or the figures of another length.
    fn lend_otherwise(&mut self, rng: &mut Rng) {
        let (slots, days, lines) = self.sizes();
        let lists = Lists::zeroed(slots, days);
        self.lent = match rng.below(6) {
            0 => Lent::Figures(rng.pick(&[0, 1, FIGURES - 1, FIGURES + 1])),
            1 | 2 => {
                let fewer = lines.saturating_sub(1);
                let other = rng.pick(&[fewer, lines + 1, 0, 2 * lines + 1]);
                Lent::Answers(other)
            }
            _ => {
                let list = rng.pick(&List::ALL);
                let len = lists.len_of(list);
                Lent::List(list, rng.pick(&[len - 1, len + 1, 0, 2 * len]))
            }
        };
    }
}

// Classes of logs

fn counted(question: &Question, answer: &Answer, tally: &mut Tally) {
    let log = &question.log;
    match answer.played {
        0 | 2 => tally.add("a log"),
        code => tally.add(&format!("no log: {code}")),
    }
    lent(question, answer, tally);
    ends(log, tally);
    let lines: Vec<&[u8]> = texts::lines(log).collect();
    wrong_line(lines.len(), answer, tally);
    let mut facts = BTreeSet::new();
    for (line, &(code, _)) in lines.iter().zip(&answer.calls) {
        line_facts(line, code, &mut facts);
    }
    facts.iter().for_each(|fact| tally.add(fact));
    let codes: BTreeSet<u32> = answer.calls.iter().map(|call| call.0).collect();
    codes
        .iter()
        .for_each(|code| tally.add(&format!("line {code}")));
    if answer.played == 0 {
        played(&lines, answer, tally);
    }
}

fn lent(question: &Question, answer: &Answer, tally: &mut Tally) {
    let refused = answer.played;
    match question.lent {
        Lent::AsAsked => {}
        Lent::Figures(_) => tally.add_if(answer.log == 2, "2: figures"),
        Lent::List(list, _) if refused == 2 => {
            let at = List::ALL.iter().position(|&other| other == list);
            tally.add(LISTS[at.expect("a list")]);
        }
        Lent::Answers(len) if refused == 2 => {
            let lines = answer.calls.len();
            tally.add_if(len + 1 == lines, "2: one answer fewer");
            tally.add_if(len == lines + 1, "2: one answer more");
            tally.add_if(len == 0, "2: no answers");
        }
        Lent::List(..) | Lent::Answers(_) => {
            tally.add_if(refused != 0, &format!("{refused} before 2"));
        }
    }
}

fn ends(log: &[u8], tally: &mut Tally) {
    let ended: Vec<&[u8]> = log.split_inclusive(|&byte| byte == b'\n').collect();
    let any = |end: &[u8], not: &[u8]| {
        let mut lines = ended.iter();
        lines.any(|line| line.ends_with(end) && (not.is_empty() || !line.ends_with(not)))
    };
    tally.add_if(any(b"\n", b"\r\n"), "line ended by LF");
    tally.add_if(any(b"\r\n", b"\r\r\n"), "line ended by CR LF");
    tally.add_if(any(b"\r\r\n", b""), "line ended by two CR and LF");
    match ended.last() {
        None => tally.add("no bytes"),
        Some([.., b'\n']) => {}
        Some([b'\r']) => tally.add("last line a CR alone"),
        Some([.., b'\r']) => tally.add("last line without LF, with CR"),
        Some(_) => tally.add("last line without LF"),
    }
}

/// Where the line that decides stands, and why it is none where it would be one elsewhere.
fn wrong_line(lines: usize, answer: &Answer, tally: &mut Tally) {
    let n: usize = narrowed(answer.line);
    if n == 0 {
        return;
    }
    tally.add_if(n == 1, "wrong: first line");
    tally.add_if(n == lines, "wrong: last line");
    tally.add_if(n > 255, "wrong: line over 255");
    let before = &answer.calls[..n - 1];
    let opened = before.iter().any(|call| call.0 == 102);
    let table = before.iter().any(|call| call.0 == 106);
    match answer.calls[n - 1].0 {
        102 => tally.add_if(opened, "second opening"),
        106 if opened => tally.add("table after the opening"),
        106 => tally.add_if(table, "second table"),
        110.. => tally.add("call before the opening"),
        _ => {}
    }
}

/// What is to be said of one line with its CR.
fn line_facts(line: &[u8], code: u32, facts: &mut BTreeSet<&'static str>) {
    let text = line.strip_suffix(b"\r").unwrap_or(line);
    let cr = text.len() < line.len();
    match code {
        103 => passed_facts(text, cr, facts),
        105 => no_call_facts(text, cr, facts),
        _ => call_facts(text, cr, code, facts),
    }
}

fn passed_facts(text: &[u8], cr: bool, facts: &mut BTreeSet<&'static str>) {
    facts.insert(match (text.len(), cr) {
        (0, _) => "empty line",
        (255, _) => "comment of 255 bytes",
        (256, false) => "comment of 256 bytes",
        (256, true) => "comment of 256 bytes with CR",
        (65_546, _) => "comment of 65,546 bytes",
        _ => "comment",
    });
    if !text.is_ascii() {
        facts.insert("comment with a byte over 127");
    }
}

fn call_facts(text: &[u8], cr: bool, code: u32, facts: &mut BTreeSet<&'static str>) {
    let words: Vec<&[u8]> = text.split(|&byte| byte == b' ').collect();
    let mut add = |holds: bool, fact| {
        if holds {
            facts.insert(fact);
        }
    };
    add(text.len() == 255 && !cr, "call of 255 bytes");
    add(text.len() == 255 && cr, "call of 255 bytes and CR");
    add(words.contains(&&b"4294967295"[..]), "number 4,294,967,295");
    let zeros = |word: &&[u8]| word.len() > 1 && word[0] == b'0' && !word.contains(&b'-');
    add(words.iter().any(zeros), "number with leading zeros");
    add(code == 113 && words.len() == 4, "register of 3 numbers");
    add(code == 113 && words.len() == 5, "register of 4 numbers");
}

fn no_call_facts(text: &[u8], cr: bool, facts: &mut BTreeSet<&'static str>) {
    let words: Vec<&[u8]> = text.split(|&byte| byte == b' ').collect();
    let mut add = |holds: bool, fact| {
        if holds {
            facts.insert(fact);
        }
    };
    let over = text.len() == 256 && call_without_a_zero(text);
    add(over && !cr, "256 bytes that are no call");
    add(over && cr, "256 bytes and CR that are no call");
    add(text.len() == 65_546, "65,546 bytes that are no call");
    add(words.contains(&&b"4294967296"[..]), "number 4,294,967,296");
    let long = |word: &&[u8]| word.len() > 20 && word.iter().all(|&byte| byte == b'9');
    add(words.iter().any(long), "number over 2^64");
    add(text.contains(&0), "line with a NUL");
    add(!text.is_ascii(), "line with a byte over 127");
    add(text.contains(&b'\r'), "line with a CR inside");
    add(text.ends_with(b" "), "line with a space at its end");
    add(
        words[1..].len() > 1 && words[1..].contains(&&b""[..]),
        "line with two spaces",
    );
    add(text == b"limits", "limits of no number");
    let limits = words[0] == b"limits" && text.len() <= 255;
    add(limits && words.len() == 26, "limits of 25 numbers");
}

/// Whether it is its length alone that makes a line none.
fn call_without_a_zero(text: &[u8]) -> bool {
    let zeros = text.windows(3).position(|bytes| bytes == b" 00");
    zeros.is_some_and(|at| log::line(&[&text[..at], b" ", &text[at + 2..]].concat()).is_some())
}

/// The answers of a log that was played.
fn played(lines: &[&[u8]], answer: &Answer, tally: &mut Tally) {
    let table = answer.calls.iter().position(|call| call.0 == 106);
    let places = table.map(|at| lines[at].iter().filter(|&&byte| byte == b' ').count());
    tally.add(match places {
        None => "no table",
        Some(1) => "table of 1",
        Some(24) => "table of 24",
        Some(_) => "table of another number",
    });
    let calls = answer.calls.iter().zip(&answer.answers);
    let fillings = calls.filter(|(call, _)| call.0 >= 110);
    let all: BTreeSet<(u32, u8)> = fillings
        .clone()
        .map(|(call, &made)| (call.0, made))
        .collect();
    tally.add_if(all.is_empty(), "no call at all");
    for (code, made) in all {
        let name = ["delivery", "agreed", "holiday", "register"][code as usize - 110];
        tally.add(&format!("{name} answered {made}"));
    }
    let mut over = fillings.filter(|(call, _)| call.0 == 110 && call.1[3] > 255);
    let over = over.any(|(_, &made)| made == 5);
    tally.add_if(over, "status over 255 answered 5");
}

// Single lines

impl Check<'_> {
    /// A line by itself, one of a log or of any bytes, with fields of another number at times.
    fn single_line(&mut self, rng: &mut Rng) -> Result<(), String> {
        let mut lines = texts::short(rng);
        if rng.one_in(2) {
            lines = rng.pick(&Damage::ALL).0.done(rng, lines);
        }
        let mut line = match rng.below(8) {
            0 => noise(rng, 12),
            _ => lines
                .get(rng.below(lines.len()))
                .cloned()
                .unwrap_or_default(),
        };
        let any = !lines.contains(&line);
        if !rng.one_in(8) {
            line = line.strip_suffix(b"\n").unwrap_or(&line).to_vec();
        }
        let many = rng.pick(&[FIELDS, FIELDS, FIELDS, FIELDS, 0, 6, 8]);
        let code = self.called(&line, many, rng.word())?;
        let is_line = log::line(&line).is_some();
        self.tally.add_if(any, "single line of any bytes");
        self.tally
            .add_if(line.ends_with(b"\n"), "single line with LF");
        self.tally
            .add_if(code == 2 && is_line, "2: fields of a line");
        self.tally
            .add_if(code == 2 && !is_line, "2: fields of no line");
        Ok(())
    }

    /// What a line is, of all builds alike; the fields of none stay.
    fn called(&self, line: &[u8], many: usize, unwritten: u32) -> Result<u32, String> {
        let called = |side: Logs| {
            let mut fields = vec![unwritten; many];
            ((side.call)(line, &mut fields), fields)
        };
        let one = called(SECOND);
        for (name, side) in others(self.other) {
            let two = called(side);
            if one != two {
                let line = line.escape_ascii();
                return Err(format!(
                    "line: {one:?}, {name} {two:?}; {many} fields: {line}"
                ));
            }
        }
        if [2, 105].contains(&one.0) && one.1 != vec![unwritten; many] {
            return Err(format!(
                "refused, but fields changed: {}",
                line.escape_ascii()
            ));
        }
        Ok(one.0)
    }
}

// Slots and dates

impl Check<'_> {
    fn slot(&mut self, rng: &mut Rng) -> Result<(), String> {
        let any = rng.between(1, 400);
        let days = rng.pick(&[1, 2, 31, 366, 400, any]);
        let interval = rng.pick(&[5, 15, 30]);
        let mut head = heads::random(rng, days, interval);
        let first = head.shape().expect("a head made to be in bounds").first_day;
        let (date, class) = slot_date(rng, first, days);
        let any = rng.between(0, DAY_MINUTES - 1);
        let minute = rng.pick(&[0, any, any, any, 1439, 1439, 1440, rng.clone().word(), MOST]);
        if rng.one_in(8) {
            head = heads::broken(rng, head);
        }
        let slot = (SECOND.slot)(head, date, minute);
        for (name, side) in others(self.other) {
            let two = (side.slot)(head, date, minute);
            if slot != two {
                return Err(format!(
                    "slot: {slot}, {name} {two}; {head:?}, {date:?}, {minute}"
                ));
            }
        }
        self.slot_classes(head, (date, class), minute, slot);
        Ok(())
    }

    fn slot_classes(
        &mut self,
        head: Head,
        (date, class): ([u32; 3], &str),
        minute: u32,
        slot: u32,
    ) {
        let tally = &mut self.tally;
        match slot {
            100_000_001 => {
                tally.add("slot refused 1");
                tally.add_if(class != "slot" || minute >= 1440, "slot: 1 before 3");
            }
            100_000_003 => {
                tally.add_if(class != "slot", class);
                tally.add_if(class == "slot" && minute == 1440, "slot: minute 1,440");
                let most = class == "slot" && minute == MOST;
                tally.add_if(most, "slot: minute 4,294,967,295");
            }
            _ => {
                tally.add("slot");
                tally.add_if(slot == 0, "first slot of the book");
                let slots = DAY_MINUTES / head.interval * head.days;
                tally.add_if(slot + 1 == slots, "last slot of the book");
                tally.add_if(date[1..] == [2, 29], "slot on 29 February");
                tally.add_if(minute == 1439, "slot: minute 1,439");
            }
        }
    }

    /// Every day number and some beyond.
    fn dates(&mut self, rng: &mut Rng) -> Result<(), String> {
        let beyond = [65_535, 65_536, 99_999_999, 100_000_000, MOST];
        let any = (0..1000).map(|_| rng.word());
        let numbers = (0..=LAST_DAY + 1000).chain(beyond).chain(any);
        for number in numbers {
            let one = (SECOND.date)(number);
            for (name, side) in others(self.other) {
                let two = (side.date)(number);
                if one != two {
                    return Err(format!("date of day {number}: {one}, {name} {two}"));
                }
            }
        }
        self.tally.add("date of every day number");
        self.tally.add("day number over 36,524");
        Ok(())
    }
}

/// A date, and its class: in the book, before or after it, or none.
fn slot_date(rng: &mut Rng, first: u32, days: u32) -> ([u32; 3], &'static str) {
    let last = first + days - 1;
    let any = rng.between(first, last);
    let (number, class) = match rng.below(10) {
        0 if first > 0 => {
            let any = rng.between(0, first - 1);
            (rng.pick(&[first - 1, any]), "slot: day before the book")
        }
        1 if last < LAST_DAY => {
            let any = rng.between(last + 1, LAST_DAY);
            (rng.pick(&[last + 1, any]), "slot: day after the book")
        }
        2 => {
            let none = [
                [2001, 2, 29],
                [2024, 2, 30],
                [2024, 0, 1],
                [2024, 13, 1],
                [2024, 5, 0],
                [2024, 6, 31],
                [1999, 12, 31],
                [2100, 1, 1],
                [0, 0, 0],
                [MOST, MOST, MOST],
            ];
            return (rng.pick(&none), "slot: no date");
        }
        3 | 4 => (first, "slot"),
        5 | 6 => (last, "slot"),
        _ => (any, "slot"),
    };
    let (year, month, day) = head::date(number);
    ([year, month, day], class)
}

// The line of a file

impl Check<'_> {
    fn file_line(&mut self, files: &Files, rng: &mut Rng, index: u64) -> Result<(), String> {
        let damaged = rng.one_in(2);
        let file = if damaged {
            files.small.damaged(files.seed, index).file()
        } else if rng.one_in(6) {
            files.large[rng.below(files.large.len())].clone()
        } else {
            files.small.whole(rng).to_vec()
        };
        let exact = line::of_any_length(&file).map_or(30, |line| line.len());
        let short = rng.below(exact);
        let room = rng.pick(&[exact, exact, exact + 1, exact + 40, exact - 1, 0, short]);
        let answer = self.lined(rng, &file, room)?;
        match answer {
            7 => self.tally.add(match room {
                0 => "line refused 7: no byte",
                _ if room + 1 == exact => "line refused 7: one byte short",
                _ => "line refused 7: another length",
            }),
            8 | 9 => {
                self.tally.add(&format!("line refused {answer}"));
                // The shortest line has 24 bytes.
                self.tally.add_if(room < 24, &format!("{answer} before 7"));
            }
            _ => self.lined_classes(&file, room == exact, damaged),
        }
        Ok(())
    }

    /// The answer, of all builds alike; bytes after the line, or all, stay.
    fn lined(&self, rng: &mut Rng, file: &[u8], room: usize) -> Result<u64, String> {
        let before = noise(rng, room);
        let lined = |side: Logs| {
            let mut out = before.clone();
            ((side.line)(file, &mut out), out)
        };
        let one = lined(SECOND);
        for (name, side) in others(self.other) {
            let two = lined(side);
            if one != two {
                let file = hex(&file[..file.len().min(8192)]);
                return Err(format!("line: {one:?}, {name} {two:?}; file {file}"));
            }
        }
        let written = if one.0 < 10 { 0 } else { narrowed(one.0) };
        if one.1[written..] != before[written..] {
            return Err(format!("line: {}, but bytes changed", one.0));
        }
        Ok(one.0)
    }

    fn lined_classes(&mut self, file: &[u8], exact: bool, damaged: bool) {
        let tally = &mut self.tally;
        tally.add("line of a file");
        let layout = file[file.len() - file::TRAILER_BYTES + 5];
        tally.add(&format!("line of a file of layout {layout}"));
        tally.add_if(
            file.len() > line::MOST_BYTES,
            "line of a file over 65,536 bytes",
        );
        tally.add_if(damaged, "line of a damaged file");
        tally.add(if exact {
            "line into its exact length"
        } else {
            "line into more, bytes after it unchanged"
        });
    }
}
