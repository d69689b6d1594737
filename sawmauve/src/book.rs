//! A book that owns its ten lists.

use crate::codes::{DONE, FIELDS, LATE, REPEAT, SHORTEST};
use crate::file::{SLOT_BYTES, SPAN_BYTES, TRAILER_BYTES};
use crate::{Call, Error, Explanation, Head, calls};

/// A book: its head and its ten lists, as its calls left them.
#[derive(Clone, Debug, PartialEq, Eq)]
pub struct Book {
    pub(crate) head: Head,
    pub(crate) values: Vec<u32>,
    pub(crate) versions: Vec<u32>,
    pub(crate) statuses: Vec<u8>,
    pub(crate) holidays: Vec<u8>,
    pub(crate) readings: Vec<u32>,
    pub(crate) read_versions: Vec<u32>,
    pub(crate) agreed: Vec<u32>,
    pub(crate) agreed_versions: Vec<u32>,
    pub(crate) counts: Vec<u16>,
    pub(crate) widths: Vec<u16>,
}

/// How a filling call was accepted.
#[derive(Clone, Copy, Debug, PartialEq, Eq)]
pub enum Accepted {
    /// It stands in its cell.
    Stored,
    /// A lower version than the cell's: nothing changes.
    Late,
    /// An equal version with equal content: nothing changes.
    Repeat,
}

/// What stands for a slot: the delivery, and the agreed value.
#[derive(Clone, Copy, Debug, PartialEq, Eq)]
pub struct Cell {
    /// The delivery's version; 0 where none came.
    pub version: u32,
    /// The delivered value in Wh.
    pub value: u32,
    /// The delivery's status: 1 time change, 2 power outage, 4 partial interval.
    pub status: u8,
    /// The agreed value's version; 0 where none came.
    pub agreed_version: u32,
    /// The value agreed with the skipper, in Wh.
    pub agreed: u32,
}

/// What stands for a boundary.
#[derive(Clone, Copy, Debug, PartialEq, Eq)]
pub struct Reading {
    /// The register read's version; 0 where none came.
    pub version: u32,
    /// The lowest that the dial can have stood at, in Wh.
    pub reading: u32,
    /// How much higher it can have stood, in Wh.
    pub width: u16,
}

/// The answer that a code stands for.
pub(crate) fn accepted(code: u32) -> Result<Accepted, Error> {
    match code {
        DONE => Ok(Accepted::Stored),
        LATE => Ok(Accepted::Late),
        REPEAT => Ok(Accepted::Repeat),
        _ => Err(Error::of(code)),
    }
}

/// Nothing where a call is done, else the error.
pub(crate) fn done(code: u32) -> Result<(), Error> {
    match code {
        DONE => Ok(()),
        _ => Err(Error::of(code)),
    }
}

impl Book {
    /// Lists of the lengths that a head asks for, all cells 0.
    pub(crate) fn blank(head: Head) -> Book {
        let (slots, days) = (head.slot_count() as usize, head.day_count() as usize);
        Book {
            head,
            values: vec![0; slots],
            versions: vec![0; slots],
            statuses: vec![0; slots],
            holidays: vec![0; days],
            readings: vec![0; days + 1],
            read_versions: vec![0; days + 1],
            agreed: vec![0; slots],
            agreed_versions: vec![0; slots],
            counts: vec![0; days],
            widths: vec![0; days + 1],
        }
    }

    /// Opens a book.
    pub fn open(head: Head) -> Result<Book, Error> {
        let mut book = Book::blank(head);
        done(calls::open(
            head,
            &mut book.values,
            &mut book.versions,
            &mut book.statuses,
            &mut book.holidays,
            &mut book.readings,
            &mut book.read_versions,
            &mut book.agreed,
            &mut book.agreed_versions,
            &mut book.counts,
            &mut book.widths,
        ))?;
        Ok(book)
    }

    /// Its head.
    pub fn head(&self) -> Head {
        self.head
    }

    /// A delivery for a slot.
    pub fn deliver(
        &mut self,
        slot: u32,
        version: u32,
        value: u32,
        status: u32,
    ) -> Result<Accepted, Error> {
        accepted(calls::deliver(
            self.head,
            &mut self.values,
            &mut self.versions,
            &mut self.statuses,
            &mut self.counts,
            slot,
            version,
            value,
            status,
        ))
    }

    /// A value agreed with the skipper for a slot.
    pub fn agree(&mut self, slot: u32, version: u32, value: u32) -> Result<Accepted, Error> {
        accepted(calls::agree(
            self.head,
            &mut self.agreed,
            &mut self.agreed_versions,
            slot,
            version,
            value,
        ))
    }

    /// A holiday.
    pub fn holiday(&mut self, day: u32) -> Result<Accepted, Error> {
        accepted(calls::holiday(self.head, &mut self.holidays, day))
    }

    /// A register read at a boundary.
    pub fn register(
        &mut self,
        boundary: u32,
        version: u32,
        reading: u32,
        width: u32,
    ) -> Result<Accepted, Error> {
        accepted(calls::register(
            self.head,
            &mut self.readings,
            &mut self.read_versions,
            &mut self.widths,
            boundary,
            version,
            reading,
            width,
        ))
    }

    /// The bytes of its file.
    pub fn publish(&self) -> Result<Vec<u8>, Error> {
        let spans = SPAN_BYTES * self.counts.len();
        let mut out = vec![0; SLOT_BYTES * self.values.len() + spans + TRAILER_BYTES];
        let length = calls::publish(
            self.head,
            &self.values,
            &self.versions,
            &self.statuses,
            &self.holidays,
            &self.readings,
            &self.read_versions,
            &self.agreed,
            &self.agreed_versions,
            &self.counts,
            &self.widths,
            &mut out,
        );
        written(length, out)
    }

    /// How a slot's outcome comes about.
    pub fn explain(&self, slot: u32) -> Result<Explanation, Error> {
        let mut fields = [0; FIELDS];
        done(calls::explain(
            self.head,
            &self.values,
            &self.versions,
            &self.statuses,
            &self.holidays,
            &self.readings,
            &self.read_versions,
            &self.agreed,
            &self.agreed_versions,
            &self.counts,
            &self.widths,
            slot,
            &mut fields,
        ))?;
        Explanation::of(&fields)
    }

    /// How many slots of each day have come.
    pub fn counts(&self) -> &[u16] {
        &self.counts
    }

    /// Whether a day is a holiday.
    pub fn is_holiday(&self, day: u32) -> bool {
        self.holidays.get(day as usize) == Some(&1)
    }

    /// The book without its register reads. It has no span, so that its outcomes are what was filled before any span was fitted to the dial.
    pub fn unread(&self) -> Book {
        let boundaries = self.read_versions.len();
        Book {
            readings: vec![0; boundaries],
            read_versions: vec![0; boundaries],
            widths: vec![0; boundaries],
            ..self.clone()
        }
    }

    /// What stands for a slot.
    pub fn cell(&self, slot: u32) -> Option<Cell> {
        let at = slot as usize;
        Some(Cell {
            version: *self.versions.get(at)?,
            value: *self.values.get(at)?,
            status: *self.statuses.get(at)?,
            agreed_version: *self.agreed_versions.get(at)?,
            agreed: *self.agreed.get(at)?,
        })
    }

    /// What stands for a boundary.
    pub fn reading(&self, boundary: u32) -> Option<Reading> {
        let at = boundary as usize;
        Some(Reading {
            version: *self.read_versions.get(at)?,
            reading: *self.readings.get(at)?,
            width: *self.widths.get(at)?,
        })
    }

    /// The version of the cell that a call names; none for a call without a version and for a cell outside the book.
    pub fn version_of(&self, call: &Call) -> Option<u32> {
        let (versions, at) = match *call {
            Call::Delivery { slot, .. } => (&self.versions, slot),
            Call::Agreed { slot, .. } => (&self.agreed_versions, slot),
            Call::Register { boundary, .. } => (&self.read_versions, boundary),
            Call::Nothing | Call::Limits | Call::Opening { .. } | Call::Holiday { .. } => {
                return None;
            }
        };
        versions.get(at as usize).copied()
    }
}

/// The first bytes of a buffer, as many as were written, or the refusal.
pub(crate) fn written(length: u64, mut out: Vec<u8>) -> Result<Vec<u8>, Error> {
    if length < SHORTEST {
        return Err(Error::of(length));
    }
    out.truncate(Error::narrowed(length)?);
    Ok(out)
}
