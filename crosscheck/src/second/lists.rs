//! The ten lists of a book, and the second build's calls over them.

use crate::guard::Guarded;
use crate::number::{low_half, narrowed};
use crate::second::book::{self, Filed};
use crate::second::head::{Head, Shape};
use crate::second::rules::Cells;

#[derive(Clone, Copy, Debug, PartialEq, Eq)]
pub struct Delivery {
    pub slot: u32,
    pub version: u32,
    pub value: u32,
    pub status: u32,
}

#[derive(Clone, Copy, Debug, PartialEq, Eq)]
pub struct RegisterRead {
    pub boundary: u32,
    pub version: u32,
    pub reading: u32,
    pub width: u32,
}

#[derive(Clone, Copy, Debug, PartialEq, Eq)]
pub struct Agreement {
    pub slot: u32,
    pub version: u32,
    pub value: u32,
}

// From the numbers of a line of a log, in its order.

impl From<[u32; 4]> for Delivery {
    fn from([slot, version, value, status]: [u32; 4]) -> Delivery {
        Delivery {
            slot,
            version,
            value,
            status,
        }
    }
}

impl From<[u32; 4]> for RegisterRead {
    fn from([boundary, version, reading, width]: [u32; 4]) -> RegisterRead {
        RegisterRead {
            boundary,
            version,
            reading,
            width,
        }
    }
}

impl From<[u32; 3]> for Agreement {
    fn from([slot, version, value]: [u32; 3]) -> Agreement {
        Agreement {
            slot,
            version,
            value,
        }
    }
}

/// The ten lists, owned by the caller, each in pages of its own.
#[derive(Clone, Debug, Default, PartialEq, Eq)]
pub struct Lists {
    pub values: Guarded<u32>,
    pub versions: Guarded<u32>,
    pub statuses: Guarded<u8>,
    pub holidays: Guarded<u8>,
    pub readings: Guarded<u32>,
    pub read_versions: Guarded<u32>,
    pub agreed: Guarded<u32>,
    pub agreed_versions: Guarded<u32>,
    pub counts: Guarded<u16>,
    pub widths: Guarded<u16>,
}

#[derive(Clone, Copy, Debug, PartialEq, Eq)]
pub enum List {
    Values,
    Versions,
    Statuses,
    Holidays,
    Readings,
    ReadVersions,
    Agreed,
    AgreedVersions,
    Counts,
    Widths,
}

impl List {
    pub const ALL: [List; 10] = [
        List::Values,
        List::Versions,
        List::Statuses,
        List::Holidays,
        List::Readings,
        List::ReadVersions,
        List::Agreed,
        List::AgreedVersions,
        List::Counts,
        List::Widths,
    ];

    /// How long the list of a book is.
    pub fn wanted(self, shape: &Shape) -> usize {
        match self {
            List::Values | List::Versions | List::Statuses => shape.slots,
            List::Agreed | List::AgreedVersions => shape.slots,
            List::Holidays | List::Counts => shape.days,
            List::Readings | List::ReadVersions | List::Widths => shape.days + 1,
        }
    }
}

impl Lists {
    /// Lists of `slots` and `days` with cells no opening has cleared yet.
    pub fn unopened(slots: usize, days: usize) -> Lists {
        let word = |i: usize| narrowed::<u32>(i).wrapping_mul(0x9E37_79B9) | 1;
        let words = |len: usize| (0..len).map(word).collect::<Guarded<u32>>();
        let bytes = |len: usize| {
            (0..len)
                .map(|i| word(i).to_le_bytes()[0])
                .collect::<Guarded<u8>>()
        };
        let halves = |len: usize| {
            (0..len)
                .map(|i| low_half(word(i)))
                .collect::<Guarded<u16>>()
        };
        Lists {
            values: words(slots),
            versions: words(slots),
            statuses: bytes(slots),
            holidays: bytes(days),
            readings: words(days + 1),
            read_versions: words(days + 1),
            agreed: words(slots),
            agreed_versions: words(slots),
            counts: halves(days),
            widths: halves(days + 1),
        }
    }

    pub fn zeroed(slots: usize, days: usize) -> Lists {
        Lists {
            values: vec![0; slots].into(),
            versions: vec![0; slots].into(),
            statuses: vec![0; slots].into(),
            holidays: vec![0; days].into(),
            readings: vec![0; days + 1].into(),
            read_versions: vec![0; days + 1].into(),
            agreed: vec![0; slots].into(),
            agreed_versions: vec![0; slots].into(),
            counts: vec![0; days].into(),
            widths: vec![0; days + 1].into(),
        }
    }

    pub fn clear(&mut self) {
        self.values.fill(0);
        self.versions.fill(0);
        self.statuses.fill(0);
        self.holidays.fill(0);
        self.readings.fill(0);
        self.read_versions.fill(0);
        self.agreed.fill(0);
        self.agreed_versions.fill(0);
        self.counts.fill(0);
        self.widths.fill(0);
    }

    /// Sets the counts to the numbers of delivered slots.
    pub fn recount(&mut self, slots_a_day: usize) {
        let days = self.versions.chunks(slots_a_day);
        for (count, day) in self.counts.iter_mut().zip(days) {
            *count = narrowed(day.iter().filter(|&&version| version != 0).count());
        }
    }

    pub fn cells(&self) -> Cells<'_> {
        Cells {
            values: &self.values,
            versions: &self.versions,
            statuses: &self.statuses,
            holidays: &self.holidays,
            readings: &self.readings,
            read_versions: &self.read_versions,
            agreed: &self.agreed,
            agreed_versions: &self.agreed_versions,
            widths: &self.widths,
        }
    }

    pub fn len_of(&self, list: List) -> usize {
        match list {
            List::Values => self.values.len(),
            List::Versions => self.versions.len(),
            List::Statuses => self.statuses.len(),
            List::Holidays => self.holidays.len(),
            List::Readings => self.readings.len(),
            List::ReadVersions => self.read_versions.len(),
            List::Agreed => self.agreed.len(),
            List::AgreedVersions => self.agreed_versions.len(),
            List::Counts => self.counts.len(),
            List::Widths => self.widths.len(),
        }
    }

    /// Whether every list has the length that a book of this shape asks for.
    pub fn fit(&self, shape: &Shape) -> bool {
        List::ALL
            .iter()
            .all(|&list| self.len_of(list) == list.wanted(shape))
    }

    /// Writes one cell behind the book's back; nothing where there is no such cell.
    pub fn write(&mut self, list: List, index: usize, value: u32) {
        if index >= self.len_of(list) {
            return;
        }
        match list {
            List::Values => self.values[index] = value,
            List::Versions => self.versions[index] = value,
            List::Statuses => self.statuses[index] = narrowed(value),
            List::Holidays => self.holidays[index] = narrowed(value),
            List::Readings => self.readings[index] = value,
            List::ReadVersions => self.read_versions[index] = value,
            List::Agreed => self.agreed[index] = value,
            List::AgreedVersions => self.agreed_versions[index] = value,
            List::Counts => self.counts[index] = narrowed(value),
            List::Widths => self.widths[index] = narrowed(value),
        }
    }

    /// Cuts a list short, or lengthens it with cells that calls could leave.
    pub fn resize(&mut self, list: List, len: usize) {
        match list {
            List::Values => self.values.resize(len, 0),
            List::Versions => self.versions.resize(len, 0),
            List::Statuses => self.statuses.resize(len, 0),
            List::Holidays => self.holidays.resize(len, 0),
            List::Readings => self.readings.resize(len, 0),
            List::ReadVersions => self.read_versions.resize(len, 0),
            List::Agreed => self.agreed.resize(len, 0),
            List::AgreedVersions => self.agreed_versions.resize(len, 0),
            List::Counts => self.counts.resize(len, 0),
            List::Widths => self.widths.resize(len, 0),
        }
    }

    /// The first list and cell that differ.
    pub fn difference(&self, other: &Lists) -> Option<String> {
        words("values", &self.values, &other.values)
            .or_else(|| words("versions", &self.versions, &other.versions))
            .or_else(|| words("statuses", &self.statuses, &other.statuses))
            .or_else(|| words("holidays", &self.holidays, &other.holidays))
            .or_else(|| words("readings", &self.readings, &other.readings))
            .or_else(|| words("read_versions", &self.read_versions, &other.read_versions))
            .or_else(|| words("agreed", &self.agreed, &other.agreed))
            .or_else(|| {
                let (one, two) = (&self.agreed_versions, &other.agreed_versions);
                words("agreed_versions", one, two)
            })
            .or_else(|| words("counts", &self.counts, &other.counts))
            .or_else(|| words("widths", &self.widths, &other.widths))
    }
}

/// The second build's calls, each with the lists that are lent to it.
impl Lists {
    pub fn open(&mut self, head: Head) -> Result<(), u8> {
        book::open(
            head,
            &mut self.values,
            &mut self.versions,
            &mut self.statuses,
            &mut self.holidays,
            &mut self.readings,
            &mut self.read_versions,
            &mut self.agreed,
            &mut self.agreed_versions,
            &mut self.counts,
            &mut self.widths,
        )
    }

    pub fn deliver(&mut self, head: Head, delivery: Delivery) -> Result<Filed, u8> {
        book::deliver(
            head,
            &mut self.values,
            &mut self.versions,
            &mut self.statuses,
            &mut self.counts,
            delivery.slot,
            delivery.version,
            delivery.value,
            delivery.status,
        )
    }

    pub fn holiday(&mut self, head: Head, day: u32) -> Result<Filed, u8> {
        book::holiday(head, &mut self.holidays, day)
    }

    pub fn register(&mut self, head: Head, read: RegisterRead) -> Result<Filed, u8> {
        book::register(
            head,
            &mut self.readings,
            &mut self.read_versions,
            &mut self.widths,
            read.boundary,
            read.version,
            read.reading,
            read.width,
        )
    }

    pub fn agree(&mut self, head: Head, agreement: Agreement) -> Result<Filed, u8> {
        book::agree(
            head,
            &mut self.agreed,
            &mut self.agreed_versions,
            agreement.slot,
            agreement.version,
            agreement.value,
        )
    }

    pub fn publish(&self, head: Head, out: &mut [u8]) -> Result<usize, u8> {
        book::publish(
            head,
            &self.values,
            &self.versions,
            &self.statuses,
            &self.holidays,
            &self.readings,
            &self.read_versions,
            &self.agreed,
            &self.agreed_versions,
            &self.counts,
            &self.widths,
            out,
        )
    }
}

fn words<T: PartialEq + std::fmt::Debug>(name: &str, one: &[T], other: &[T]) -> Option<String> {
    if one == other {
        return None;
    }
    if one.len() != other.len() {
        return Some(format!("{name}: {} and {} cells", one.len(), other.len()));
    }
    let at = one.iter().zip(other).position(|(a, b)| a != b)?;
    Some(format!("{name}[{at}]: {:?} and {:?}", one[at], other[at]))
}
