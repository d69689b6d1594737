//! A published file that the proved reader accepted.

use crate::book::{done, written};
use crate::codes::FIGURES;
use crate::{Error, Fields, Method, Quality, Refusal, State, calls};

/// The bytes of a slot's record.
pub(crate) const SLOT_BYTES: usize = 6;

/// The bytes of a span's record.
pub(crate) const SPAN_BYTES: usize = 14;

/// The bytes of the trailer.
pub(crate) const TRAILER_BYTES: usize = 32;

/// The bytes of the longest file: 400 days of 5 minutes, with a span for each day.
pub const LONGEST: usize = SLOT_BYTES * 288 * 400 + SPAN_BYTES * 400 + TRAILER_BYTES;

/// Tables that are not as their trailer has them.
const BROKEN: Error = Error::Refused(Refusal::Broken);

/// The bytes of a file, what the reader gave of them, and the records of its two tables.
#[derive(Clone, Debug)]
pub struct File {
    bytes: Vec<u8>,
    figures: Figures,
    slots: Vec<Slot>,
    spans: Vec<Span>,
}

/// The figures of a file's trailer.
#[derive(Clone, Copy, Debug, PartialEq, Eq)]
pub struct Figures {
    /// The number of the first day, 0 for 2000-01-01.
    pub first: u32,
    /// D, 1 to 400.
    pub days: u32,
    /// L in minutes: 5, 15 or 30.
    pub interval: u32,
    /// M: how many spans there are.
    pub spans: usize,
    /// How many slots are A.
    pub actual: u64,
    /// How many slots are S or F.
    pub substituted: u64,
    /// How many slots are N.
    pub none: u64,
    /// The sum of all values in Wh.
    pub sum: u64,
    /// 3 in every file published now; 1 or 2 in older ones.
    pub layout: u8,
}

/// A slot's record.
#[derive(Clone, Copy, Debug, PartialEq, Eq)]
pub struct Slot {
    /// The value in Wh.
    pub value: u32,
    /// What the value is.
    pub quality: Quality,
    /// How it came about.
    pub method: Method,
}

/// A span's record.
#[derive(Clone, Copy, Debug, PartialEq, Eq)]
pub struct Span {
    /// The first boundary, counted in days from the book's start.
    pub first: u32,
    /// The last boundary.
    pub last: u32,
    /// The lowest advance of the dial, in Wh; R in the layouts 1 and 2.
    pub lowest: u32,
    /// The highest advance of the dial, in Wh; R in the layouts 1 and 2.
    pub highest: u32,
    /// How it lies to its advance.
    pub state: State,
}

impl Figures {
    /// The figures that the library gives, in its order.
    fn of(figures: [u64; FIGURES]) -> Result<Figures, Error> {
        let [
            first,
            days,
            interval,
            spans,
            actual,
            substituted,
            none,
            sum,
            layout,
        ] = figures;
        Ok(Figures {
            first: Error::narrowed(first)?,
            days: Error::narrowed(days)?,
            interval: Error::narrowed(interval)?,
            spans: Error::narrowed(spans)?,
            actual,
            substituted,
            none,
            sum,
            layout: Error::narrowed(layout)?,
        })
    }

    /// n.
    pub fn slots_per_day(&self) -> u32 {
        1440_u32.checked_div(self.interval).unwrap_or(0)
    }

    /// N.
    pub fn slots(&self) -> usize {
        self.slots_per_day() as usize * self.days as usize
    }
}

impl Slot {
    fn of(record: &[u8; SLOT_BYTES]) -> Result<Slot, Error> {
        let [a, b, c, d, quality, method] = *record;
        Ok(Slot {
            value: u32::from_le_bytes([a, b, c, d]),
            quality: Quality::try_from(quality)?,
            method: Method::try_from(method)?,
        })
    }
}

impl Span {
    /// A record of layout 3, or of a layout before it, which has one advance.
    fn of(record: &[u8]) -> Result<Span, Error> {
        let parts = || {
            let (first, rest) = record.split_first_chunk()?;
            let (last, rest) = rest.split_first_chunk()?;
            let (lowest, rest) = rest.split_first_chunk()?;
            let (highest, rest) = rest.split_first_chunk().unwrap_or((lowest, rest));
            Some((first, last, lowest, highest, *rest.first()?))
        };
        let (first, last, lowest, highest, state) = parts().ok_or(BROKEN)?;
        Ok(Span {
            first: u16::from_le_bytes(*first).into(),
            last: u16::from_le_bytes(*last).into(),
            lowest: u32::from_le_bytes(*lowest),
            highest: u32::from_le_bytes(*highest),
            state: State::try_from(state)?,
        })
    }
}

fn slots_of(table: &[u8]) -> Result<Vec<Slot>, Error> {
    let (records, _) = table.as_chunks();
    // Collecting results would let it grow step by step.
    let mut slots = Vec::with_capacity(records.len());
    for record in records {
        slots.push(Slot::of(record)?);
    }
    Ok(slots)
}

fn spans_of(table: &[u8], count: usize) -> Result<Vec<Span>, Error> {
    let length = table.len().checked_div(count).unwrap_or(0);
    table.chunks(length.max(1)).map(Span::of).collect()
}

impl File {
    /// The file that these bytes are.
    pub fn read(bytes: Vec<u8>) -> Result<File, Error> {
        let mut figures = [0; FIGURES];
        done(calls::read(&bytes, &mut figures))?;
        let figures = Figures::of(figures)?;
        let end = Error::narrowed(calls::tables(&bytes))?;
        let tables = bytes.get(..end).unwrap_or(&[]);
        let (slots, spans) = tables
            .split_at_checked(SLOT_BYTES * figures.slots())
            .ok_or(BROKEN)?;
        let (slots, spans) = (slots_of(slots)?, spans_of(spans, figures.spans)?);
        Ok(File {
            bytes,
            figures,
            slots,
            spans,
        })
    }

    /// Its bytes.
    pub fn bytes(&self) -> &[u8] {
        &self.bytes
    }

    /// The figures of its trailer.
    pub fn figures(&self) -> &Figures {
        &self.figures
    }

    /// 01's line.
    pub fn line(&self) -> Result<Vec<u8>, Error> {
        let mut out = vec![0; 256];
        written(calls::line(&self.bytes, &mut out), out)
    }

    /// The slot table.
    pub fn slot_table(&self) -> &[u8] {
        let end = SLOT_BYTES * self.figures.slots();
        self.bytes.get(..end).unwrap_or(&[])
    }

    /// Its slots in order.
    pub fn slots(&self) -> &[Slot] {
        &self.slots
    }

    /// Its spans in order.
    pub fn spans(&self) -> &[Span] {
        &self.spans
    }

    /// The totals of stays, each a first day and the day after the last, counted from 0 in the book.
    pub fn stays(&self, pairs: &[(u32, u32)]) -> Result<Vec<u64>, Error> {
        let numbers: Vec<u32> = pairs
            .iter()
            .flat_map(|(first, until)| [*first, *until])
            .collect();
        let mut totals = vec![0; pairs.len()];
        done(calls::stays(&self.bytes, &numbers, &mut totals))?;
        Ok(totals)
    }

    /// Its slot table laid out for storage.
    pub fn strips(&self) -> Result<Vec<u8>, Error> {
        let table = self.slot_table();
        let mut out = vec![0; table.len()];
        done(calls::to_strips(self.figures.interval, table, &mut out))?;
        Ok(out)
    }

    /// It as NEM12, with an office's fields.
    pub fn nem12(&self, fields: &Fields) -> Result<Vec<u8>, Error> {
        fields.export(
            &self.bytes,
            self.figures.slots(),
            self.figures.days as usize,
        )
    }
}

/// The slot table of strips.
pub fn from_strips(interval: u32, strips: &[u8]) -> Result<Vec<u8>, Error> {
    let mut out = vec![0; strips.len()];
    done(calls::from_strips(interval, strips, &mut out))?;
    Ok(out)
}
