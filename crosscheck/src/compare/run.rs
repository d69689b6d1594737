//! Runs a list of calls on the second build, on its plain book and on another build.

use crate::census;
use crate::census::counts::Counts;
use crate::census::days::{self, Before};
use crate::census::ranges;
use crate::compare::acceptance;
use crate::compare::calls::{Act, Book, Call, Room};
use crate::compare::definition::Definition;
use crate::compare::plain::Plain;
use crate::compare::side::{Answer, Second, Side, apply, filed_answer};
use crate::number::narrowed;
use crate::second::book::Filed;
use crate::second::contents::Contents;
use crate::second::file::{self, Frame};
use crate::second::head::Shape;
use crate::second::lists::{Agreement, Delivery, List, Lists, RegisterRead};
use crate::second::reader::{self, Figures};
use crate::second::rules::{self, Cells, Quality, Slot, Span};

/// Books up to this many slots are also held against `definition`.
const DEFINED_SLOTS: usize = 20_000;

/// The first thing that differed.
#[derive(Clone, Debug, PartialEq, Eq)]
pub struct Difference {
    /// Position of the call in the list.
    pub call: usize,
    pub what: String,
}

/// Makes all calls and compares after each.
pub fn run(book: &Book, other: Option<&dyn Side>, counts: &mut Counts) -> Result<(), Difference> {
    let lists = Lists::unopened(book.slots, book.days);
    let mut run = Run {
        other,
        second: lists.clone(),
        others: lists.clone(),
        expected: lists,
        plain: None,
    };
    counts.book(book);
    for (i, call) in book.calls.iter().enumerate() {
        run.step(call, counts)
            .map_err(|what| Difference { call: i, what })?;
    }
    Ok(())
}

struct Run<'a> {
    other: Option<&'a dyn Side>,
    /// The second build's lists.
    second: Lists,
    /// The other build's lists.
    others: Lists,
    /// The cells as the plain book has them, and as the answers say without it.
    expected: Lists,
    /// None before opening, and once a cell was written behind the book's back.
    plain: Option<Plain>,
}

impl Run<'_> {
    fn step(&mut self, call: &Call, counts: &mut Counts) -> Result<(), String> {
        match call.resized {
            Some((list, len)) => {
                counts.resized(list);
                self.aside(list, len).step_whole(call, counts)
            }
            None => self.step_whole(call, counts),
        }
    }

    /// The same lists with one of another length, for one call.
    fn aside(&self, list: List, len: usize) -> Self {
        let resized = |lists: &Lists| {
            let mut lists = lists.clone();
            lists.resize(list, len);
            lists
        };
        Run {
            other: self.other,
            second: resized(&self.second),
            others: resized(&self.others),
            expected: resized(&self.expected),
            plain: None,
        }
    }

    fn step_whole(&mut self, call: &Call, counts: &mut Counts) -> Result<(), String> {
        let room = room(call, &self.second);
        let mut out = pattern(room);
        let before = Before::of(call, &self.second);
        let answer = apply(&Second, call, &mut self.second, &mut out);
        self.compare_with_other(call, answer, &out)?;
        match answer {
            Some(answer) => {
                counts.answer(&call.act, answer);
                if let Some(before) = before {
                    before.count(answer, counts);
                }
                if let Act::Publish { .. } = call.act {
                    days::published(call, &self.second, answer, room, counts);
                }
                if answer == Answer::Refused(1) {
                    counts.limit_refused(call.head);
                }
                if answer == Answer::Refused(11) && self.others_possible(call) {
                    counts.impossible_agreed(&call.act, &self.second);
                }
                ranges::answered(call, &self.second, answer, counts);
                self.compare_with_plain(call, answer, room)?;
            }
            None => self.written_aside(call),
        }
        if let Some(cell) = self.second.difference(&self.expected) {
            return Err(format!("second build and plain book, {cell}"));
        }
        if let (Act::Publish { .. }, Some(answer)) = (call.act, answer) {
            self.check_buffer(answer, &out)?;
            self.check_file(call, answer, &out, counts)?;
        }
        Ok(())
    }

    /// Whether the call wouldn't meet 11 without the agreed values.
    fn others_possible(&self, call: &Call) -> bool {
        let mut lists = self.second.clone();
        lists.agreed.fill(0);
        apply(&Second, call, &mut lists, &mut []) != Some(Answer::Refused(11))
    }

    fn compare_with_other(
        &mut self,
        call: &Call,
        answer: Option<Answer>,
        out: &[u8],
    ) -> Result<(), String> {
        let Some(other) = self.other else {
            return Ok(());
        };
        let mut others_out = pattern(out.len());
        let others_answer = apply(other, call, &mut self.others, &mut others_out);
        if answer != others_answer {
            return Err(format!("answer: {answer:?}, other {others_answer:?}"));
        }
        if let Some(cell) = self.second.difference(&self.others) {
            return Err(format!("second build and other, {cell}"));
        }
        match (0..out.len()).find(|&i| out[i] != others_out[i]) {
            Some(i) => Err(format!(
                "byte {i} of {}: {}, other {}",
                out.len(),
                out[i],
                others_out[i]
            )),
            None => Ok(()),
        }
    }

    fn compare_with_plain(
        &mut self,
        call: &Call,
        answer: Answer,
        room: usize,
    ) -> Result<(), String> {
        let expected = self.expected_answer(call, room);
        if expected.is_some_and(|expected| expected != answer) {
            return Err(format!("answer: {answer:?}, plain book {expected:?}"));
        }
        self.update_expected(call, answer);
        Ok(())
    }

    /// What the head, the lengths and the plain book say; none where they don't tell.
    fn expected_answer(&mut self, call: &Call, room: usize) -> Option<Answer> {
        let Ok(shape) = call.head.shape() else {
            return Some(Answer::Refused(1));
        };
        if wrong_length(&shape, &call.act, &self.second) {
            return Some(Answer::Refused(2));
        }
        if call.act == Act::Open {
            let mut plain = Plain::default();
            let opened = plain.open(call.head);
            self.plain = Some(plain);
            return opened.ok().map(|()| Answer::Done);
        }
        if impossible_count(&shape, &call.act, &self.expected) {
            return Some(Answer::Refused(11));
        }
        let plain = self.plain.as_mut()?;
        match call.act {
            Act::Deliver(delivery) => Some(filed_answer(plain.deliver(call.head, delivery))),
            Act::Holiday { day } => Some(filed_answer(plain.holiday(call.head, day))),
            Act::Register(read) => Some(filed_answer(plain.register(call.head, read))),
            Act::Agree(agreement) => Some(filed_answer(plain.agree(call.head, agreement))),
            Act::Publish { .. } => {
                let length = file_length(&shape, &self.expected);
                Some(if room < length {
                    Answer::Refused(7)
                } else {
                    Answer::Length(length as u64)
                })
            }
            Act::Open | Act::Write { .. } => None,
        }
    }

    fn update_expected(&mut self, call: &Call, answer: Answer) {
        let stored = answer == Answer::Filed(Filed::Stored);
        match call.act {
            Act::Open if answer == Answer::Done => self.expected.clear(),
            Act::Deliver(delivery) => self.expect_delivery(call, delivery, answer),
            Act::Holiday { day } => self.expect_holiday(day, stored),
            Act::Register(read) => self.expect_register(read, stored),
            Act::Agree(agreement) => self.expect_agreement(agreement, stored),
            Act::Open | Act::Publish { .. } | Act::Write { .. } => {}
        }
    }

    fn expect_delivery(&mut self, call: &Call, delivery: Delivery, answer: Answer) {
        let cell = match &self.plain {
            Some(plain) => plain.slot(delivery.slot),
            // A status that was stored is at most 7.
            None if answer == Answer::Filed(Filed::Stored) => {
                (delivery.value, delivery.version, narrowed(delivery.status))
            }
            None => return,
        };
        if let Some((day, count)) = self.expected_count(call, delivery.slot, answer) {
            self.expected.write(List::Counts, day, count.into());
        }
        let at = delivery.slot as usize;
        self.expected.write(List::Values, at, cell.0);
        self.expected.write(List::Versions, at, cell.1);
        self.expected.write(List::Statuses, at, cell.2.into());
    }

    fn expect_holiday(&mut self, day: u32, stored: bool) {
        let cell = match &self.plain {
            Some(plain) => plain.day(day),
            None if stored => 1,
            None => return,
        };
        self.expected
            .write(List::Holidays, day as usize, cell.into());
    }

    fn expect_register(&mut self, read: RegisterRead, stored: bool) {
        let cell = match &self.plain {
            Some(plain) => plain.boundary(read.boundary),
            None if stored => (read.reading, read.version, read.width),
            None => return,
        };
        let at = read.boundary as usize;
        self.expected.write(List::Readings, at, cell.0);
        self.expected.write(List::ReadVersions, at, cell.1);
        self.expected.write(List::Widths, at, cell.2);
    }

    fn expect_agreement(&mut self, agreement: Agreement, stored: bool) {
        let cell = match &self.plain {
            Some(plain) => plain.agreed(agreement.slot),
            None if stored => (agreement.value, agreement.version),
            None => return,
        };
        let at = agreement.slot as usize;
        self.expected.write(List::Agreed, at, cell.0);
        self.expected.write(List::AgreedVersions, at, cell.1);
    }

    /// The day and its count after an accepted delivery; before it, the cells are as they were.
    fn expected_count(&self, call: &Call, slot: u32, answer: Answer) -> Option<(usize, u16)> {
        let Answer::Filed(filed) = answer else {
            return None;
        };
        let n = call.head.shape().ok()?.slots_a_day;
        let day = slot as usize / n;
        let count = match &self.plain {
            Some(plain) => plain.count(narrowed(day), narrowed(n)),
            None => {
                let first = filed == Filed::Stored && self.expected.versions[slot as usize] == 0;
                self.expected.counts[day].wrapping_add(first.into())
            }
        };
        Some((day, count))
    }

    fn written_aside(&mut self, call: &Call) {
        if let Act::Write { list, index, value } = call.act {
            self.plain = None;
            self.expected.write(list, index, value);
        }
    }

    /// Bytes behind the file, or all on a refusal, are as they were.
    fn check_buffer(&self, answer: Answer, out: &[u8]) -> Result<(), String> {
        let written = match answer {
            Answer::Length(length) => narrowed(length),
            _ => 0,
        };
        let before = pattern(out.len());
        match (written..out.len()).find(|&i| out[i] != before[i]) {
            Some(i) => Err(format!("byte {i} behind the file was changed")),
            None => Ok(()),
        }
    }

    fn check_file(
        &self,
        call: &Call,
        answer: Answer,
        out: &[u8],
        counts: &mut Counts,
    ) -> Result<(), String> {
        let (Answer::Length(length), Ok(shape)) = (answer, call.head.shape()) else {
            return Ok(());
        };
        let published = &out[..narrowed(length)];
        let cells = self.expected.cells();
        let defined = defined(&shape, &cells);
        let file = defined.file();
        if published != file {
            let at = published.iter().zip(&file).position(|(a, b)| a != b);
            return Err(format!("file and definition differ at byte {at:?}"));
        }
        let outcomes = (&defined.slots[..], &defined.spans[..]);
        let (read, figures) = (Second.read(published), figures(&shape, outcomes));
        if read != Ok(figures) {
            return Err(format!("reader: {read:?}, not {figures:?}"));
        }
        if Contents::of(published).as_ref() != Ok(&defined) {
            return Err("the reader gives other outcomes".to_string());
        }
        census::take(&shape, &cells, outcomes, counts);
        compare_readers(published, self.other, counts)?;
        // Files published before W10 are still read.
        compare_readers(&defined.before().file(), self.other, counts)
    }
}

/// The outcomes by definition; of the largest books by the rules.
fn defined(shape: &Shape, cells: &Cells) -> Contents {
    let (slots, spans) = if shape.slots <= DEFINED_SLOTS {
        Definition::new(*shape, *cells).outcomes()
    } else {
        rules::outcomes(shape, cells)
    };
    Contents {
        frame: Frame::published(shape),
        slots,
        spans,
    }
}

fn figures(shape: &Shape, (slots, spans): (&[Slot], &[Span])) -> Figures {
    let count = |quality| slots.iter().filter(|s| s.quality == quality).count() as u64;
    Figures {
        first_day: u64::from(shape.first_day),
        days: shape.days as u64,
        interval: u64::from(shape.interval),
        spans: spans.len() as u64,
        actual: count(Quality::Actual),
        substituted: count(Quality::Substituted) + count(Quality::Agreed),
        none: count(Quality::None),
        sum: slots.iter().map(|slot| u64::from(slot.value)).sum(),
        layout: 3,
    }
}

/// Puts a file, whole or damaged, through the reader and the other build's.
pub fn compare_readers(
    file: &[u8],
    other: Option<&dyn Side>,
    counts: &mut Counts,
) -> Result<(), String> {
    counts.reader(reader::check(file));
    let read = Second.read(file);
    hold_reader(file, read)?;
    match other {
        Some(other) => compare_reader(file, read, other),
        None => Ok(()),
    }
}

/// The reader against the definition, its tables and its own writing.
fn hold_reader(file: &[u8], read: Result<Figures, u64>) -> Result<(), String> {
    let defined = acceptance::read(file).map_err(u64::from);
    if read != defined {
        let checked = reader::check(file);
        return Err(format!(
            "reader: {read:?} ({checked:?}), by definition {defined:?}"
        ));
    }
    let tables = reader::tables(file);
    let wanted = match read {
        Ok(_) => &file[..file.len() - file::TRAILER_BYTES],
        Err(_) => &[],
    };
    if tables != wanted {
        return Err(format!("tables: {} bytes, read {read:?}", tables.len()));
    }
    if Contents::of(file).is_ok_and(|contents| contents.file() != file) {
        return Err("what the file gives is written otherwise".to_string());
    }
    Ok(())
}

/// The other build's reader against what the second build's read.
fn compare_reader(file: &[u8], read: Result<Figures, u64>, other: &dyn Side) -> Result<(), String> {
    let others_read = other.read(file);
    if read != others_read {
        let checked = reader::check(file);
        return Err(format!(
            "reader: {read:?} ({checked:?}), other {others_read:?}"
        ));
    }
    let (tables, others_tables) = (Second.tables(file), other.tables(file));
    if tables != others_tables {
        return Err(format!("tables: {tables}, other {others_tables}"));
    }
    if !other.keeps_convention(file) {
        return Err("reader: a wrong list of figures is not refused, 2".to_string());
    }
    Ok(())
}

/// Whether a list lent to the call has another length than the head asks for.
fn wrong_length(shape: &Shape, act: &Act, lists: &Lists) -> bool {
    let mut lent = act.lent().iter();
    lent.any(|&list| lists.len_of(list) != list.wanted(shape))
}

/// Whether W6 gives 11 for a count: of the day of a slot that waits for its first delivery,
/// with arguments in bounds, or of any day where it isn't the number of delivered slots.
fn impossible_count(shape: &Shape, act: &Act, lists: &Lists) -> bool {
    let n = shape.slots_a_day;
    match *act {
        Act::Deliver(delivery) => {
            let slot = delivery.slot as usize;
            slot < shape.slots
                && delivery.version > 0
                && delivery.status < 8
                && lists.versions[slot] == 0
                && lists.counts[slot / n] as usize >= n
        }
        Act::Publish { .. } => {
            let mut left: Vec<i64> = lists.counts.iter().map(|&count| count.into()).collect();
            for (slot, &version) in lists.versions.iter().enumerate() {
                left[slot / n] -= i64::from(version > 0);
            }
            left.iter().any(|&left| left != 0)
        }
        _ => false,
    }
}

/// 6N + 14M + 32 of the lists as they are.
fn file_length(shape: &Shape, lists: &Lists) -> usize {
    let read = lists.read_versions.iter().filter(|&&v| v != 0).count();
    6 * shape.slots + 14 * read.saturating_sub(1) + 32
}

fn room(call: &Call, lists: &Lists) -> usize {
    let Act::Publish { room } = call.act else {
        return 0;
    };
    let length = match call.head.shape() {
        Ok(shape) => file_length(&shape, lists),
        Err(_) => 64,
    };
    match room {
        Room::Exact => length,
        Room::Over(more) => length + more,
        Room::Under(less) => length.saturating_sub(less),
        Room::Of(bytes) => bytes,
    }
}

/// What a buffer holds before a call.
fn pattern(len: usize) -> Vec<u8> {
    (0..len).map(|i| narrowed::<u8>(i % 251) ^ 0xA5).collect()
}
