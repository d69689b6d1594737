//! 01, The published file: the writer, of W10's layout and of the two before it.

use crate::number::narrowed;
use crate::second::head::Shape;
use crate::second::rules::{Quality, Slot, Span, State};
use crate::second::trailer;

pub const SLOT_BYTES: usize = 6;
pub const TRAILER_BYTES: usize = 32;
/// The layout of every file published since W10.
pub const LAYOUT: u8 = 3;
/// The layouts before it: of a file without an F slot, and of one with.
pub const LAYOUT_PLAIN: u8 = 1;
pub const LAYOUT_AGREED: u8 = 2;

/// The bytes of a span's record.
pub fn span_bytes(layout: u8) -> usize {
    if layout == LAYOUT { 14 } else { 10 }
}

/// 6N + 14M + 32; 6N + 10M + 32 in the layouts before.
pub fn length(layout: u8, slots: usize, spans: usize) -> usize {
    SLOT_BYTES * slots + span_bytes(layout) * spans + TRAILER_BYTES
}

/// What a trailer has beside the counts: the head's part and the layout.
#[derive(Clone, Copy, Debug, PartialEq, Eq)]
pub struct Frame {
    pub first_day: u32,
    pub days: usize,
    pub interval: u32,
    pub layout: u8,
}

impl Frame {
    /// Every file that is published is of layout 3.
    pub fn published(shape: &Shape) -> Frame {
        Frame {
            first_day: shape.first_day,
            days: shape.days,
            interval: shape.interval,
            layout: LAYOUT,
        }
    }
}

/// Writes the whole file; `out` is as long as the file. In layouts 1 and 2 a span has
/// one advance.
pub fn write(frame: &Frame, slots: &[Slot], spans: &[Span], out: &mut [u8]) {
    let span_bytes = span_bytes(frame.layout);
    let (slot_table, rest) = out.split_at_mut(SLOT_BYTES * slots.len());
    let (span_table, trailer) = rest.split_at_mut(span_bytes * spans.len());
    for (record, slot) in slot_table.chunks_exact_mut(SLOT_BYTES).zip(slots) {
        record.copy_from_slice(&slot_record(slot));
    }
    for (record, span) in span_table.chunks_exact_mut(span_bytes).zip(spans) {
        record.copy_from_slice(&span_record(frame.layout, span));
    }
    trailer.copy_from_slice(&self::trailer(frame, slots, spans.len()));
}

pub fn letter(quality: Quality) -> u8 {
    match quality {
        Quality::Actual => b'A',
        Quality::Substituted => b'S',
        Quality::None => b'N',
        Quality::Agreed => b'F',
    }
}

pub fn state_number(state: State) -> u8 {
    match state {
        State::Agrees => 0,
        State::Scaled => 1,
        State::Open => 2,
        State::Disagrees => 3,
    }
}

fn slot_record(slot: &Slot) -> [u8; SLOT_BYTES] {
    let mut record = [0; SLOT_BYTES];
    record[0..4].copy_from_slice(&slot.value.to_le_bytes());
    record[4] = letter(slot.quality);
    record[5] = slot.method;
    record
}

fn span_record(layout: u8, span: &Span) -> Vec<u8> {
    let mut record = Vec::new();
    record.extend(narrowed::<u16>(span.first).to_le_bytes());
    record.extend(narrowed::<u16>(span.last).to_le_bytes());
    record.extend(span.advances.lowest.to_le_bytes());
    if layout == LAYOUT {
        record.extend(span.advances.highest.to_le_bytes());
    }
    record.extend([state_number(span.state), 0]);
    record
}

/// Before W10: 2 where a slot is agreed, otherwise 1.
pub fn layout_before(slots: &[Slot]) -> u8 {
    if slots.iter().any(|slot| slot.quality == Quality::Agreed) {
        LAYOUT_AGREED
    } else {
        LAYOUT_PLAIN
    }
}

fn trailer(frame: &Frame, slots: &[Slot], spans: usize) -> [u8; TRAILER_BYTES] {
    let count = |quality| slots.iter().filter(|s| s.quality == quality).count() as u64;
    let sum: u64 = slots.iter().map(|slot| u64::from(slot.value)).sum();
    let fields = [
        (trailer::FIRST_DAY, frame.first_day.into()),
        (trailer::DAYS, frame.days as u64),
        (trailer::INTERVAL, frame.interval.into()),
        (trailer::LAYOUT, frame.layout.into()),
        (trailer::SPANS, spans as u64),
        (trailer::ACTUAL, count(Quality::Actual)),
        // F counts with S.
        (
            trailer::SUBSTITUTED,
            count(Quality::Substituted) + count(Quality::Agreed),
        ),
        (trailer::NONE, count(Quality::None)),
        (trailer::SUM, sum),
        (trailer::DISTANCE, (span_bytes(frame.layout) * spans) as u64),
    ];
    let mut trailer = [0; TRAILER_BYTES];
    for (field, number) in fields {
        trailer::set(&mut trailer, field, number);
    }
    trailer
}
