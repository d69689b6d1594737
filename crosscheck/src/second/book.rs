//! The calls over the ten lent lists: opening, the four filling calls, publishing.

use std::cmp::Ordering;

use crate::number::narrowed;
use crate::second::file::{self, Frame};
use crate::second::head::{DIAL, Head, Shape};
use crate::second::refusal;
use crate::second::rules::{self, Cells};

/// How an accepted filling call was taken.
#[derive(Clone, Copy, Debug, PartialEq, Eq)]
pub enum Filed {
    Stored,
    Late,
    Repeat,
}

/// The highest status: three bits.
pub const MOST_STATUS: u8 = 7;

/// The highest agreed value in Wh.
pub const MOST_AGREED: u32 = 99_999_999;

/// The highest width of a register read in Wh.
pub const MOST_WIDTH: u16 = 9_999;

/// Sets all cells to 0.
#[allow(clippy::too_many_arguments)] // the lists and the arguments as 01 and 02 name them
pub fn open(
    head: Head,
    values: &mut [u32],
    versions: &mut [u32],
    statuses: &mut [u8],
    holidays: &mut [u8],
    readings: &mut [u32],
    read_versions: &mut [u32],
    agreed: &mut [u32],
    agreed_versions: &mut [u32],
    counts: &mut [u16],
    widths: &mut [u16],
) -> Result<(), u8> {
    let shape = head.shape()?;
    let deliveries = [values.len(), versions.len(), statuses.len()];
    lengths(&deliveries, shape.slots)?;
    lengths(&[agreed.len(), agreed_versions.len()], shape.slots)?;
    lengths(&[holidays.len(), counts.len()], shape.days)?;
    let reads = [readings.len(), read_versions.len(), widths.len()];
    lengths(&reads, shape.days + 1)?;
    values.fill(0);
    versions.fill(0);
    statuses.fill(0);
    holidays.fill(0);
    readings.fill(0);
    read_versions.fill(0);
    agreed.fill(0);
    agreed_versions.fill(0);
    counts.fill(0);
    widths.fill(0);
    Ok(())
}

/// A status of 32 bits as the byte that its list holds.
pub fn status_of(status: u32) -> Result<u8, u8> {
    let status = u8::try_from(status).unwrap_or(u8::MAX);
    refuse_if(status > MOST_STATUS, refusal::STATUS)?;
    Ok(status)
}

/// Takes a delivery for one slot; a slot's first one raises its day's count.
#[allow(clippy::too_many_arguments)] // the lists and the arguments as 01 and 02 name them
pub fn deliver(
    head: Head,
    values: &mut [u32],
    versions: &mut [u32],
    statuses: &mut [u8],
    counts: &mut [u16],
    slot: u32,
    version: u32,
    value: u32,
    status: u32,
) -> Result<Filed, u8> {
    let shape = head.shape()?;
    lengths(&[values.len(), versions.len(), statuses.len()], shape.slots)?;
    lengths(&[counts.len()], shape.days)?;
    let slot = slot as usize;
    refuse_if(slot >= shape.slots, refusal::PLACE)?;
    refuse_if(version == 0, refusal::VERSION)?;
    let status = status_of(status)?;
    let cell = (values[slot], statuses[slot]);
    refuse_if(
        !slot_possible(values[slot], versions[slot], statuses[slot]),
        refusal::CELL,
    )?;
    let first = versions[slot] == 0;
    let count = &mut counts[slot / shape.slots_a_day];
    let full = usize::from(*count) >= shape.slots_a_day;
    refuse_if(first && full, refusal::CELL)?;
    let filed = filed(version, versions[slot], (value, status) == cell)?;
    if filed == Filed::Stored {
        *count += u16::from(first);
        values[slot] = value;
        versions[slot] = version;
        statuses[slot] = status;
    }
    Ok(filed)
}

/// Marks a day as a holiday.
pub fn holiday(head: Head, holidays: &mut [u8], day: u32) -> Result<Filed, u8> {
    let shape = head.shape()?;
    lengths(&[holidays.len()], shape.days)?;
    let day = day as usize;
    refuse_if(day >= shape.days, refusal::PLACE)?;
    refuse_if(!holiday_possible(holidays[day]), refusal::CELL)?;
    if holidays[day] == 1 {
        return Ok(Filed::Repeat);
    }
    holidays[day] = 1;
    Ok(Filed::Stored)
}

/// Takes a register read at one boundary. The width is any number, so that all over
/// 9,999 are refused.
#[allow(clippy::too_many_arguments)] // the lists and the arguments as 01 and 02 name them
pub fn register(
    head: Head,
    readings: &mut [u32],
    read_versions: &mut [u32],
    widths: &mut [u16],
    boundary: u32,
    version: u32,
    reading: u32,
    width: u32,
) -> Result<Filed, u8> {
    let shape = head.shape()?;
    let reads = [readings.len(), read_versions.len(), widths.len()];
    lengths(&reads, shape.days + 1)?;
    let boundary = boundary as usize;
    refuse_if(boundary > shape.days, refusal::PLACE)?;
    refuse_if(version == 0, refusal::VERSION)?;
    refuse_if(reading >= DIAL, refusal::READING)?;
    refuse_if(width > MOST_WIDTH.into(), refusal::WIDTH)?;
    let width = narrowed(width);
    let cell = (readings[boundary], widths[boundary]);
    refuse_if(
        !register_possible(cell.0, read_versions[boundary], cell.1),
        refusal::CELL,
    )?;
    let filed = filed(version, read_versions[boundary], (reading, width) == cell)?;
    if filed == Filed::Stored {
        readings[boundary] = reading;
        read_versions[boundary] = version;
        widths[boundary] = width;
    }
    Ok(filed)
}

/// Takes a value agreed for one slot.
pub fn agree(
    head: Head,
    agreed: &mut [u32],
    agreed_versions: &mut [u32],
    slot: u32,
    version: u32,
    value: u32,
) -> Result<Filed, u8> {
    let shape = head.shape()?;
    lengths(&[agreed.len(), agreed_versions.len()], shape.slots)?;
    let slot = slot as usize;
    refuse_if(slot >= shape.slots, refusal::PLACE)?;
    refuse_if(version == 0, refusal::VERSION)?;
    refuse_if(value > MOST_AGREED, refusal::AGREED)?;
    refuse_if(
        !agreed_possible(agreed[slot], agreed_versions[slot]),
        refusal::CELL,
    )?;
    let filed = filed(version, agreed_versions[slot], value == agreed[slot])?;
    if filed == Filed::Stored {
        agreed[slot] = value;
        agreed_versions[slot] = version;
    }
    Ok(filed)
}

/// Writes the file to the front of `out` and answers its length.
#[allow(clippy::too_many_arguments)] // the lists and the arguments as 01 and 02 name them
pub fn publish(
    head: Head,
    values: &[u32],
    versions: &[u32],
    statuses: &[u8],
    holidays: &[u8],
    readings: &[u32],
    read_versions: &[u32],
    agreed: &[u32],
    agreed_versions: &[u32],
    counts: &[u16],
    widths: &[u16],
    out: &mut [u8],
) -> Result<usize, u8> {
    let shape = head.shape()?;
    let deliveries = [values.len(), versions.len(), statuses.len()];
    lengths(&deliveries, shape.slots)?;
    lengths(&[agreed.len(), agreed_versions.len()], shape.slots)?;
    lengths(&[holidays.len(), counts.len()], shape.days)?;
    let reads = [readings.len(), read_versions.len(), widths.len()];
    lengths(&reads, shape.days + 1)?;
    let cells = Cells {
        values,
        versions,
        statuses,
        holidays,
        readings,
        read_versions,
        agreed,
        agreed_versions,
        widths,
    };
    // In publishing, 11 goes before 7.
    let possible = all_possible(&cells) && counted(&shape, versions, counts);
    refuse_if(!possible, refusal::CELL)?;
    written(&shape, &cells, out)
}

fn written(shape: &Shape, cells: &Cells, out: &mut [u8]) -> Result<usize, u8> {
    let (slots, spans) = rules::outcomes(shape, cells);
    let length = file::length(file::LAYOUT, slots.len(), spans.len());
    refuse_if(out.len() < length, refusal::BUFFER)?;
    let frame = Frame::published(shape);
    file::write(&frame, &slots, &spans, &mut out[..length]);
    Ok(length)
}

fn refuse_if(applies: bool, number: u8) -> Result<(), u8> {
    if applies { Err(number) } else { Ok(()) }
}

fn lengths(lent: &[usize], wanted: usize) -> Result<(), u8> {
    refuse_if(lent.iter().any(|&len| len != wanted), refusal::LENGTH)
}

/// Higher is stored, lower is late, equal is repeat or, with other content, a conflict.
fn filed(version: u32, kept: u32, same_content: bool) -> Result<Filed, u8> {
    match version.cmp(&kept) {
        Ordering::Greater => Ok(Filed::Stored),
        Ordering::Less => Ok(Filed::Late),
        Ordering::Equal if same_content => Ok(Filed::Repeat),
        Ordering::Equal => Err(refusal::CONFLICT),
    }
}

fn slot_possible(value: u32, version: u32, status: u8) -> bool {
    status <= MOST_STATUS && (version != 0 || (value == 0 && status == 0))
}

fn holiday_possible(holiday: u8) -> bool {
    holiday <= 1
}

fn register_possible(reading: u32, version: u32, width: u16) -> bool {
    reading < DIAL && width <= MOST_WIDTH && (version != 0 || (reading == 0 && width == 0))
}

fn agreed_possible(value: u32, version: u32) -> bool {
    value <= MOST_AGREED && (version != 0 || value == 0)
}

fn all_possible(cells: &Cells) -> bool {
    let slots = (0..cells.values.len())
        .all(|i| slot_possible(cells.values[i], cells.versions[i], cells.statuses[i]));
    let holidays = cells.holidays.iter().all(|&cell| holiday_possible(cell));
    let registers = (0..cells.readings.len())
        .all(|i| register_possible(cells.readings[i], cells.read_versions[i], cells.widths[i]));
    let agreed =
        (0..cells.agreed.len()).all(|i| agreed_possible(cells.agreed[i], cells.agreed_versions[i]));
    slots && holidays && registers && agreed
}

/// Whether each day's count is the number of its delivered slots.
fn counted(shape: &Shape, versions: &[u32], counts: &[u16]) -> bool {
    let days = versions.chunks_exact(shape.slots_a_day);
    days.zip(counts).all(|(day, &count)| {
        let delivered = day.iter().filter(|&&version| version != 0).count();
        usize::from(count) == delivered
    })
}
