//! 01, The published file: the reader, which works from the end; W1's two layouts and
//! W10's.

use crate::number::narrowed;
use crate::second::book::MOST_AGREED;
use crate::second::file::{self, LAYOUT, LAYOUT_AGREED, LAYOUT_PLAIN, SLOT_BYTES, TRAILER_BYTES};
use crate::second::head::{self, DIAL};
use crate::second::refusal;
use crate::second::trailer;

/// The trailer's figures of an accepted file.
#[derive(Clone, Copy, Debug, PartialEq, Eq)]
pub struct Figures {
    pub first_day: u64,
    pub days: u64,
    pub interval: u64,
    pub spans: u64,
    pub actual: u64,
    /// S and F slots.
    pub substituted: u64,
    pub none: u64,
    pub sum: u64,
    /// 3; before W10 1, or 2 of a file with an F slot.
    pub layout: u64,
}

/// The first broken rule found; all the reader gives away of it is its number.
#[derive(Clone, Copy, Debug, PartialEq, Eq, PartialOrd, Ord)]
pub enum Fault {
    Short,
    FirstDay,
    Days,
    Interval,
    Layout,
    Distance,
    Length,
    Record,
    AgreedInLayout1,
    NoneAgreedInLayout2,
    SpanBounds,
    SpanChain,
    Advance,
    AdvanceOrder,
    State,
    LastByte,
    OpenState,
    ScaledState,
    ScaledMixed,
    ScaledSum,
    AgreesWithSubstituted,
    ScaledOutside,
    Counts,
    Sum,
}

impl Fault {
    pub const ALL: [Fault; 24] = [
        Fault::Short,
        Fault::FirstDay,
        Fault::Days,
        Fault::Interval,
        Fault::Layout,
        Fault::Distance,
        Fault::Length,
        Fault::Record,
        Fault::AgreedInLayout1,
        Fault::NoneAgreedInLayout2,
        Fault::SpanBounds,
        Fault::SpanChain,
        Fault::Advance,
        Fault::AdvanceOrder,
        Fault::State,
        Fault::LastByte,
        Fault::OpenState,
        Fault::ScaledState,
        Fault::ScaledMixed,
        Fault::ScaledSum,
        Fault::AgreesWithSubstituted,
        Fault::ScaledOutside,
        Fault::Counts,
        Fault::Sum,
    ];

    /// 8 for length, distance, a head field or the layout; 9 for anything else.
    pub fn number(self) -> u8 {
        if self <= Fault::Length {
            refusal::LAYOUT
        } else {
            refusal::CONTENT
        }
    }
}

/// The trailer's figures, or the refusal.
pub fn read(file: &[u8]) -> Result<Figures, u8> {
    check(file).map_err(Fault::number)
}

/// The two tables as one part of the file; of a refused file the empty part.
pub fn tables(file: &[u8]) -> &[u8] {
    match read(file) {
        Ok(_) => &file[..file.len() - TRAILER_BYTES],
        Err(_) => &file[..0],
    }
}

/// As `read`, with the fault in place of its number.
pub fn check(file: &[u8]) -> Result<Figures, Fault> {
    checked(file).map(|(figures, ..)| figures)
}

/// As `read`, with the records beside the figures.
pub fn records(file: &[u8]) -> Result<(Figures, Vec<SlotRecord>, Vec<SpanRecord>), u8> {
    checked(file).map_err(Fault::number)
}

fn checked(file: &[u8]) -> Result<(Figures, Vec<SlotRecord>, Vec<SpanRecord>), Fault> {
    let parts = Parts::of(file)?;
    let layout = narrowed(parts.figures.layout);
    let slots: Vec<SlotRecord> = parts
        .slot_table
        .chunks_exact(SLOT_BYTES)
        .map(SlotRecord::of)
        .collect();
    let spans: Vec<SpanRecord> = parts
        .span_table
        .chunks_exact(file::span_bytes(layout))
        .map(|record| SpanRecord::of(layout, record))
        .collect();
    require(slots.iter().all(SlotRecord::allowed), Fault::Record)?;
    check_layout(&slots, &parts.figures)?;
    check_spans(&spans, &slots, &parts.figures)?;
    check_totals(&slots, &parts.figures)?;
    Ok((parts.figures, slots, spans))
}

fn require(holds: bool, fault: Fault) -> Result<(), Fault> {
    if holds { Ok(()) } else { Err(fault) }
}

/// A file split by a trailer whose head fields, distance and length hold.
struct Parts<'a> {
    figures: Figures,
    slot_table: &'a [u8],
    span_table: &'a [u8],
}

impl Parts<'_> {
    fn of(file: &[u8]) -> Result<Parts<'_>, Fault> {
        let start = file.len().checked_sub(TRAILER_BYTES).ok_or(Fault::Short)?;
        let (tables, end) = file.split_at(start);
        let field = |field| trailer::get(end, field).ok_or(Fault::Short);
        let figures = Figures {
            first_day: field(trailer::FIRST_DAY)?,
            days: field(trailer::DAYS)?,
            interval: field(trailer::INTERVAL)?,
            spans: field(trailer::SPANS)?,
            actual: field(trailer::ACTUAL)?,
            substituted: field(trailer::SUBSTITUTED)?,
            none: field(trailer::NONE)?,
            sum: field(trailer::SUM)?,
            layout: field(trailer::LAYOUT)?,
        };
        let (first_day, days) = (narrowed(figures.first_day), narrowed(figures.days));
        require(head::days_fit(first_day, 1), Fault::FirstDay)?;
        require(head::days_fit(first_day, days), Fault::Days)?;
        require(
            head::interval_known(narrowed(figures.interval)),
            Fault::Interval,
        )?;
        let layout = narrowed(figures.layout);
        let known = matches!(layout, LAYOUT_PLAIN | LAYOUT_AGREED | LAYOUT);
        require(known, Fault::Layout)?;
        let span_bytes = file::span_bytes(layout) as u64 * figures.spans;
        require(field(trailer::DISTANCE)? == span_bytes, Fault::Distance)?;
        let slot_bytes = SLOT_BYTES as u64 * (1440 / figures.interval) * figures.days;
        require(
            tables.len() as u64 == slot_bytes + span_bytes,
            Fault::Length,
        )?;
        let (slot_table, span_table) = tables.split_at(narrowed(slot_bytes));
        Ok(Parts {
            figures,
            slot_table,
            span_table,
        })
    }
}

/// A number of up to eight bytes, low byte first.
fn number(bytes: &[u8]) -> u64 {
    bytes
        .iter()
        .rev()
        .fold(0, |high, &low| high << 8 | u64::from(low))
}

pub struct SlotRecord {
    pub value: u64,
    pub letter: u8,
    pub method: u8,
}

impl SlotRecord {
    fn of(record: &[u8]) -> SlotRecord {
        SlotRecord {
            value: number(&record[0..4]),
            letter: record[4],
            method: record[5],
        }
    }

    fn allowed(&self) -> bool {
        match (self.letter, self.method) {
            (b'A', 0) | (b'S', 2 | 3 | 18 | 19) => true,
            (b'A', 1) | (b'N', 0) => self.value == 0,
            (b'F', 5) => self.value <= u64::from(MOST_AGREED),
            _ => false,
        }
    }

    fn is(&self, letter: u8) -> bool {
        self.letter == letter
    }

    fn scaled(&self) -> bool {
        matches!(self.method, 18 | 19)
    }
}

/// Of the layouts before W10, an F exactly in layout 2.
fn check_layout(slots: &[SlotRecord], figures: &Figures) -> Result<(), Fault> {
    if figures.layout == u64::from(LAYOUT) {
        return Ok(());
    }
    let agreed = slots.iter().any(|slot| slot.is(b'F'));
    let announced = figures.layout == u64::from(LAYOUT_AGREED);
    require(announced || !agreed, Fault::AgreedInLayout1)?;
    require(agreed || !announced, Fault::NoneAgreedInLayout2)
}

/// A span of layout 1 or 2 has one advance, lowest and highest alike.
pub struct SpanRecord {
    pub first: u64,
    pub last: u64,
    pub lowest: u64,
    pub highest: u64,
    pub state: u8,
    zero: u8,
}

impl SpanRecord {
    fn of(layout: u8, record: &[u8]) -> SpanRecord {
        let lowest = number(&record[4..8]);
        let (highest, rest) = if layout == LAYOUT {
            (number(&record[8..12]), &record[12..])
        } else {
            (lowest, &record[8..])
        };
        SpanRecord {
            first: number(&record[0..2]),
            last: number(&record[2..4]),
            lowest,
            highest,
            state: rest[0],
            zero: rest[1],
        }
    }
}

fn check_spans(spans: &[SpanRecord], slots: &[SlotRecord], figures: &Figures) -> Result<(), Fault> {
    let slots_a_day = 1440 / narrowed::<usize>(figures.interval);
    // Spans follow on each other, so only slots before the first and after the last.
    let mut outside: Vec<&SlotRecord> = Vec::new();
    let mut end = 0;
    for (i, span) in spans.iter().enumerate() {
        require(
            span.first < span.last && span.last <= figures.days,
            Fault::SpanBounds,
        )?;
        require(i == 0 || span.first == spans[i - 1].last, Fault::SpanChain)?;
        let first = narrowed::<usize>(span.first) * slots_a_day;
        outside.extend(&slots[end..first]);
        end = narrowed::<usize>(span.last) * slots_a_day;
        check_span(span, &slots[first..end])?;
    }
    outside.extend(&slots[end..]);
    require(
        !outside.iter().any(|slot| slot.scaled()),
        Fault::ScaledOutside,
    )
}

fn check_span(span: &SpanRecord, slots: &[SlotRecord]) -> Result<(), Fault> {
    require(span.highest < u64::from(DIAL), Fault::Advance)?;
    require(span.lowest <= span.highest, Fault::AdvanceOrder)?;
    require(span.state <= 3, Fault::State)?;
    require(span.zero == 0, Fault::LastByte)?;
    let has_none = slots.iter().any(|slot| slot.is(b'N'));
    let has_scaled = slots.iter().any(SlotRecord::scaled);
    require((span.state == 2) == has_none, Fault::OpenState)?;
    require((span.state == 1) == has_scaled, Fault::ScaledState)?;
    let mut substituted = slots.iter().filter(|slot| slot.is(b'S'));
    match span.state {
        0 => require(substituted.next().is_none(), Fault::AgreesWithSubstituted),
        1 => {
            require(substituted.all(SlotRecord::scaled), Fault::ScaledMixed)?;
            let sum: u64 = slots.iter().map(|slot| slot.value).sum();
            let between = span.lowest <= sum && sum <= span.highest;
            require(between, Fault::ScaledSum)
        }
        _ => Ok(()),
    }
}

fn check_totals(slots: &[SlotRecord], figures: &Figures) -> Result<(), Fault> {
    let count = |letter| slots.iter().filter(|slot| slot.is(letter)).count() as u64;
    // F counts with S.
    let counts = [count(b'A'), count(b'S') + count(b'F'), count(b'N')];
    let written = [figures.actual, figures.substituted, figures.none];
    require(counts == written, Fault::Counts)?;
    let sum: u64 = slots.iter().map(|slot| slot.value).sum();
    require(sum == figures.sum, Fault::Sum)
}
