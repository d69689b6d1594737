//! Damaged files: a published file and a list of edits, from a seed.

use crate::census::counts::Counts;
use crate::compare::random;
use crate::compare::rng::Rng;
use crate::number::narrowed;
use crate::second::contents;
use crate::second::file::{self, SLOT_BYTES, TRAILER_BYTES};
use crate::second::reader::{self, Fault};
use crate::second::rules::State;
use crate::second::trailer::{self, Field};

const FIELDS: [Field; 10] = [
    trailer::FIRST_DAY,
    trailer::DAYS,
    trailer::INTERVAL,
    trailer::LAYOUT,
    trailer::SPANS,
    trailer::ACTUAL,
    trailer::SUBSTITUTED,
    trailer::NONE,
    trailer::SUM,
    trailer::DISTANCE,
];

/// The boundaries of a span's record; behind them R, or in layout 3 two ends, then state
/// and zero.
pub const FIRST: Field = (0, 2);
pub const LAST: Field = (2, 2);
pub const LOWEST: Field = (4, 4);
pub const HIGHEST: Field = (8, 4);

/// The last two fields of a span's record.
fn state_field(layout: u8) -> Field {
    (file::span_bytes(layout) - 2, 1)
}

fn zero_field(layout: u8) -> Field {
    (file::span_bytes(layout) - 1, 1)
}

#[derive(Clone, Debug, PartialEq, Eq)]
pub enum Edit {
    Truncate(usize),
    Cut {
        at: usize,
        len: usize,
    },
    Extend(Vec<u8>),
    Prepend(Vec<u8>),
    Flip {
        at: usize,
        bit: u8,
    },
    Byte {
        at: usize,
        value: u8,
    },
    Trailer(Vec<u8>),
    TrailerField {
        field: Field,
        value: u64,
    },
    SwapSlots(usize, usize),
    SwapSpans(usize, usize),
    Slot {
        at: usize,
        value: u32,
        letter: u8,
        method: u8,
    },
    SpanField {
        span: usize,
        field: Field,
        value: u64,
    },
    DropSpan(usize),
    CopySpan(usize),
    AllZero,
    Bytes(Vec<u8>),
    /// Sets the trailer's counts and sum to those of the slot table.
    Mend,
    /// Sets a layout before W10 to the one the slot table asks for; layout 3 is right.
    MendLayout,
    /// Writes the span table as another layout has it, with layout byte and distance.
    Relayout(u8),
}

/// A published file and what is done to it.
#[derive(Clone, Debug)]
pub struct Damaged {
    pub base: Vec<u8>,
    pub edits: Vec<Edit>,
}

impl Damaged {
    pub fn file(&self) -> Vec<u8> {
        edited(&self.base, &self.edits)
    }
}

pub fn edited(base: &[u8], edits: &[Edit]) -> Vec<u8> {
    let mut file = base.to_vec();
    for edit in edits {
        apply(&mut file, edit);
    }
    file
}

/// An edit that has no place in the file does nothing.
fn apply(file: &mut Vec<u8>, edit: &Edit) {
    match edit {
        Edit::Truncate(len) => file.truncate(*len),
        Edit::Cut { at, len } => cut(file, *at, *len),
        Edit::Extend(bytes) => file.extend(bytes),
        Edit::Prepend(bytes) => drop(file.splice(0..0, bytes.iter().copied())),
        Edit::Flip { at, bit } => flip(file, *at, *bit),
        Edit::Byte { at, value } => put(file, *at, &[*value]),
        Edit::Trailer(bytes) => put_trailer(file, bytes),
        Edit::TrailerField { field, value } => trailer::set(file, *field, *value),
        Edit::SwapSlots(one, two) => swap(file, 0, SLOT_BYTES, *one, *two),
        Edit::SwapSpans(one, two) => swap_spans(file, *one, *two),
        Edit::Slot {
            at,
            value,
            letter,
            method,
        } => {
            let record = [&value.to_le_bytes()[..], &[*letter, *method]].concat();
            put(file, at * SLOT_BYTES, &record);
        }
        Edit::SpanField { span, field, value } => set_span_field(file, *span, *field, *value),
        Edit::DropSpan(span) => change_spans(file, *span, false),
        Edit::CopySpan(span) => change_spans(file, *span, true),
        Edit::AllZero => file.fill(0),
        Edit::Bytes(bytes) => file.clone_from(bytes),
        Edit::Mend => mend(file),
        Edit::MendLayout => mend_layout(file),
        Edit::Relayout(layout) => relayout(file, *layout),
    }
}

fn cut(file: &mut Vec<u8>, at: usize, len: usize) {
    let end = (at + len).min(file.len());
    file.drain(at.min(end)..end);
}

fn flip(file: &mut [u8], at: usize, bit: u8) {
    if let Some(byte) = file.get_mut(at) {
        *byte ^= 1 << (bit & 7);
    }
}

fn put_trailer(file: &mut [u8], bytes: &[u8]) {
    if let Some(start) = trailer_start(file) {
        put(file, start, bytes);
    }
}

fn swap_spans(file: &mut [u8], one: usize, two: usize) {
    let (start, bytes) = (span_table(file).0, record_bytes(file));
    swap(file, start, bytes, one, two);
}

fn set_span_field(file: &mut [u8], span: usize, (offset, len): Field, value: u64) {
    let (start, _) = span_table(file);
    let at = start + span * record_bytes(file) + offset;
    put(file, at, &value.to_le_bytes()[..len]);
}

fn mend_layout(file: &mut [u8]) {
    let wanted = if has_agreed(file) { 2 } else { 1 };
    if layout(file) != file::LAYOUT {
        trailer::set(file, trailer::LAYOUT, wanted);
    }
}

fn trailer_start(file: &[u8]) -> Option<usize> {
    file.len().checked_sub(TRAILER_BYTES)
}

fn put(file: &mut [u8], at: usize, bytes: &[u8]) {
    if let Some(place) = file.get_mut(at..at + bytes.len()) {
        place.copy_from_slice(bytes);
    }
}

/// A field of the trailer; 0 where there is none.
fn field(file: &[u8], field: Field) -> u64 {
    trailer::get(file, field).unwrap_or(0)
}

/// Where the span table starts, and how many spans it has.
fn span_table(file: &[u8]) -> (usize, usize) {
    let spans = narrowed(field(file, trailer::SPANS));
    let end = trailer_start(file).unwrap_or(0);
    (end.saturating_sub(spans * record_bytes(file)), spans)
}

/// The bytes of a span's record, as the layout byte has it.
fn record_bytes(file: &[u8]) -> usize {
    file::span_bytes(layout(file))
}

/// The layout byte.
pub fn layout(file: &[u8]) -> u8 {
    narrowed(field(file, trailer::LAYOUT))
}

fn relayout(file: &mut Vec<u8>, layout: u8) {
    let (Some(end), (start, spans)) = (trailer_start(file), span_table(file)) else {
        return;
    };
    let (old, new) = (record_bytes(file), file::span_bytes(layout));
    let mut table = Vec::new();
    for record in file[start..end].chunks_exact(old) {
        table.extend(&record[..8]);
        if new > old {
            // R is both ends.
            table.extend(&record[4..8]);
        } else if new == old {
            table.extend(&record[8..old - 2]);
        }
        table.extend(&record[old - 2..]);
    }
    file.splice(start..end, table);
    trailer::set(file, trailer::LAYOUT, layout.into());
    trailer::set(file, trailer::DISTANCE, (new * spans) as u64);
}

fn swap(file: &mut [u8], start: usize, len: usize, one: usize, two: usize) {
    let (one, two) = (start + one * len, start + two * len);
    if one.max(two) + len <= file.len() {
        (0..len).for_each(|i| file.swap(one + i, two + i));
    }
}

/// Drops or doubles a span's record, with M and the distance to match.
fn change_spans(file: &mut Vec<u8>, span: usize, double: bool) {
    let (start, spans) = span_table(file);
    let bytes = record_bytes(file);
    let at = start + span * bytes;
    if span >= spans || at + bytes > file.len() {
        return;
    }
    let spans = if double {
        let record = file[at..at + bytes].to_vec();
        file.splice(at..at, record);
        spans + 1
    } else {
        file.drain(at..at + bytes);
        spans - 1
    };
    trailer::set(file, trailer::SPANS, spans as u64);
    trailer::set(file, trailer::DISTANCE, (bytes * spans) as u64);
}

fn mend(file: &mut [u8]) {
    let (end, _) = span_table(file);
    let records = file[..end].chunks_exact(SLOT_BYTES);
    let count = |letter| records.clone().filter(|r| r[4] == letter).count() as u64;
    // F counts with S.
    let counts = [count(b'A'), count(b'S') + count(b'F'), count(b'N')];
    let value = |r: &[u8]| u64::from(u32::from_le_bytes([r[0], r[1], r[2], r[3]]));
    let sum = records.map(value).sum();
    trailer::set(file, trailer::ACTUAL, counts[0]);
    trailer::set(file, trailer::SUBSTITUTED, counts[1]);
    trailer::set(file, trailer::NONE, counts[2]);
    trailer::set(file, trailer::SUM, sum);
}

/// The files the damage is done to.
pub struct Bases(Vec<Vec<u8>>);

impl Bases {
    /// Every other file has a scaled span, as many rules are about those; every second
    /// pair of files has an F slot, the others none; and every second four are written
    /// in the layouts before W10, the others as they are published.
    pub fn new(seed: u64, many: usize) -> Bases {
        let mut bases = Vec::new();
        for index in 0.. {
            if bases.len() == many {
                break;
            }
            let file = random::small_file(seed ^ 0xBA5E, index);
            let scaled = bases.len() % 2 == 0 || has_scaled(&file);
            let agreed = has_agreed(&file) == (bases.len() / 2 % 2 == 1);
            if !scaled || !agreed {
                continue;
            }
            bases.push(match bases.len() / 4 % 2 {
                0 => file,
                _ => contents::before(&file).expect("a published file"),
            });
        }
        Bases(bases)
    }

    /// One of the files as it was written.
    pub fn whole(&self, rng: &mut Rng) -> &[u8] {
        &self.0[rng.below(self.0.len())]
    }

    /// The `index`th damaged file of a seed.
    pub fn damaged(&self, seed: u64, index: u64) -> Damaged {
        let mut rng = Rng::new(seed ^ 0xDA3A_6ED0, index);
        let base = self.0[rng.below(self.0.len())].clone();
        let many = rng.pick(&[1, 1, 1, 2, 3]);
        let mut edits: Vec<Edit> = (0..many).map(|_| self.edit(&mut rng, &base)).collect();
        if rng.one_in(2) {
            edits.push(Edit::Mend);
        }
        if rng.one_in(4) {
            edits.push(Edit::MendLayout);
        }
        Damaged { base, edits }
    }

    fn edit(&self, rng: &mut Rng, base: &[u8]) -> Edit {
        let (slot_end, spans) = span_table(base);
        let slots = slot_end / SLOT_BYTES;
        let span = rng.below(spans.max(1));
        match rng.below(44) {
            way @ 0..=8 => bytes_edit(rng, base.len(), way),
            9 => {
                let other = &self.0[rng.below(self.0.len())];
                Edit::Trailer(other[other.len() - TRAILER_BYTES..].to_vec())
            }
            10..=12 => trailer_edit(rng),
            13 => Edit::SwapSlots(rng.below(slots), rng.below(slots)),
            14 => Edit::SwapSpans(rng.below(spans + 1), rng.below(spans + 1)),
            15..=19 => slot_edit(rng, base, slots),
            20..=25 => span_edit(rng, base, span),
            26 => Edit::DropSpan(rng.pick(&[span, 0, spans.max(1) - 1])),
            27 => Edit::CopySpan(span),
            28 => Edit::AllZero,
            29..=33 => agreed_edit(rng, base, slots),
            34 => Edit::TrailerField {
                field: trailer::LAYOUT,
                value: rng.pick(&[0, 1, 1, 2, 2, 3, 3, 4, 255]),
            },
            36..=41 => ends_edit(rng, base, span),
            42 | 43 => Edit::Relayout(rng.pick(&[1, 2, 3, 3])),
            _ => Edit::Bytes(noise(rng, 700)),
        }
    }
}

/// Bytes cut off, put in or changed, whatever they are in the file.
fn bytes_edit(rng: &mut Rng, len: usize, way: usize) -> Edit {
    match way {
        0 => Edit::Truncate(rng.below(len + 1)),
        1 => Edit::Truncate(rng.pick(&[0, 1, 31, 32, 33, len - 1])),
        2 => Edit::Cut {
            at: rng.below(len),
            len: rng.pick(&[1, 6, 10, 14, 32]),
        },
        3 => Edit::Extend(noise(rng, 40)),
        4 => Edit::Prepend(noise(rng, 12)),
        5 | 6 => Edit::Flip {
            at: rng.below(len),
            bit: rng.byte(),
        },
        7 => Edit::Byte {
            at: rng.below(len),
            value: rng.byte(),
        },
        // A bit of the trailer.
        _ => Edit::Flip {
            at: len - 1 - rng.below(TRAILER_BYTES),
            bit: rng.byte(),
        },
    }
}

fn slot_records(file: &[u8]) -> impl Iterator<Item = &[u8]> {
    let (end, _) = span_table(file);
    file[..end].chunks_exact(SLOT_BYTES)
}

fn has_scaled(file: &[u8]) -> bool {
    slot_records(file).any(|record| matches!(record[5], 18 | 19))
}

fn has_agreed(file: &[u8]) -> bool {
    slot_records(file).any(|record| record[4] == b'F')
}

fn noise(rng: &mut Rng, most: usize) -> Vec<u8> {
    let len = 1 + rng.below(most);
    (0..len).map(|_| rng.byte()).collect()
}

fn trailer_edit(rng: &mut Rng) -> Edit {
    let field = rng.pick(&FIELDS);
    let any = u64::from(rng.word());
    let extreme = [
        0,
        1,
        2,
        3,
        5,
        15,
        30,
        400,
        401,
        36_524,
        36_525,
        65_535,
        u64::from(u32::MAX),
        u64::MAX,
        any,
    ];
    Edit::TrailerField {
        field,
        value: rng.pick(&extreme),
    }
}

/// A record set to one of the allowed kinds or near them, often with its old value.
fn slot_edit(rng: &mut Rng, base: &[u8], slots: usize) -> Edit {
    let mut at = rng.below(slots);
    if rng.one_in(3) {
        // The next substituted slot, as most rules are about those.
        let substituted = |&slot: &usize| base[slot * SLOT_BYTES + 4] == b'S';
        at = (at..slots).find(substituted).unwrap_or(at);
    }
    let record = &base[at * SLOT_BYTES..(at + 1) * SLOT_BYTES];
    let old = u32::from_le_bytes([record[0], record[1], record[2], record[3]]);
    let value = rng.pick(&[old, old, 0, 0, 1, old.wrapping_add(1), u32::MAX]);
    let any = rng.byte();
    let (letter, method) = rng.pick(&[
        (b'A', 0),
        (b'A', 1),
        (b'S', 2),
        (b'S', 3),
        (b'S', 18),
        (b'S', 19),
        (b'N', 0),
        (record[4], record[5]),
        (record[4], record[5] ^ 16),
        (record[4], any),
        (any, record[5]),
        (b'A', 2),
        (b'S', 0),
        (b'S', 1),
        (b'N', 1),
        (b'a', 0),
    ]);
    Edit::Slot {
        at,
        value,
        letter,
        method,
    }
}

/// A record set to an agreed one or near it; or an agreed one set to another.
fn agreed_edit(rng: &mut Rng, base: &[u8], slots: usize) -> Edit {
    let mut at = rng.below(slots);
    if rng.one_in(2) {
        // The next agreed slot.
        let agreed = |&slot: &usize| base[slot * SLOT_BYTES + 4] == b'F';
        at = (at..slots).find(agreed).unwrap_or(at);
    }
    let record = &base[at * SLOT_BYTES..(at + 1) * SLOT_BYTES];
    let old = u32::from_le_bytes([record[0], record[1], record[2], record[3]]);
    let any = rng.byte();
    let (letter, method) = rng.pick(&[
        (b'F', 5),
        (b'F', 5),
        (b'F', 5),
        (b'F', 0),
        (b'F', 2),
        (b'F', 21),
        (b'F', any),
        (b'A', 5),
        (b'S', 5),
        (b'N', 5),
        (any, 5),
        (b'A', 0),
        (b'S', 3),
    ]);
    Edit::Slot {
        at,
        value: rng.pick(&[old, old, 0, 99_999_999, 99_999_999, 100_000_000, u32::MAX]),
        letter,
        method,
    }
}

/// Counts what the damage did to a file of any layout.
pub fn count(damaged: &Damaged, file: &[u8], counts: &mut Counts) {
    ends_of_scaled(file, counts);
    let base = field(&damaged.base, trailer::LAYOUT);
    let checked = reader::check(file);
    let accepted = checked.is_ok();
    let changed = field(file, trailer::LAYOUT);
    let mut add = |occurred, name| counts.add_if(occurred, "damaged file", name);
    add(base == 1, "damage to a file of layout 1");
    add(base == 2, "damage to a file of layout 2");
    add(base == 3, "damage to a file of layout 3");
    add(accepted && changed == 1, "damaged, layout 1 accepted");
    add(accepted && changed == 2, "damaged, layout 2 accepted");
    add(accepted && changed == 3, "damaged, layout 3 accepted");
    let refused = |number| checked.is_err_and(|fault| fault.number() == number);
    let eight = refused(8);
    add(
        eight && base < 3 && changed == 3,
        "refused 8, layout byte made 3",
    );
    let old = matches!(changed, 1 | 2);
    add(
        eight && base == 3 && old,
        "refused 8, layout byte 3 made 1 or 2",
    );
    add(refused(9) && changed == 3, "refused 9, layout 3");
    // Of a file refused with 8, no record is known.
    if !eight {
        add(base == 1 && changed == 2, "layout byte 1 made 2");
        add(base == 2 && changed == 1, "layout byte 2 made 1");
        add(base < 3 && changed == 3, "layout 1 or 2 made 3");
        add(base == 3 && old, "layout 3 made 1 or 2");
        agreed_records(file, accepted, counts);
    }
}

/// The agreed records of a file that is accepted or refused with 9.
fn agreed_records(file: &[u8], accepted: bool, counts: &mut Counts) {
    let layout = layout(file);
    let mut add = |occurred, name| counts.add_if(occurred, "damaged file", name);
    add(layout == 1 && has_agreed(file), "F in layout 1");
    add(layout == 2 && !has_agreed(file), "no F in layout 2");
    let has = |letter: u8, method: u8, value: u32| {
        slot_records(file)
            .any(|record| record[4..] == [letter, method] && record[..4] == value.to_le_bytes())
    };
    let most = has(b'F', 5, 99_999_999);
    add(most && accepted, "(F,5) of 99,999,999 accepted");
    add(has(b'F', 5, 100_000_000), "(F,5) of 100,000,000");
    let method = |record: &[u8]| record[4] == b'F' && record[5] != 5;
    let letter = |record: &[u8]| record[4] != b'F' && record[5] == 5;
    add(slot_records(file).any(method), "F with another method");
    add(slot_records(file).any(letter), "5 with another letter");
}

/// How the sum of a scaled span of layout 3 lies to its range, where all else holds.
fn ends_of_scaled(file: &[u8], counts: &mut Counts) {
    if layout(file) != file::LAYOUT {
        return;
    }
    let mut add = |occurred, name| counts.add_if(occurred, "damaged file", name);
    match reader::check(file) {
        Err(Fault::ScaledSum) => {
            // A range of any advance would have been accepted.
            let sides = [(LOWEST, 0), (HIGHEST, 99_999_999)].map(|(field, value)| {
                let wide = |span| Edit::SpanField { span, field, value };
                let edits: Vec<Edit> = (0..span_table(file).1).map(wide).collect();
                reader::check(&edited(file, &edits)).is_ok()
            });
            add(sides[0], "scaled sum below the lowest");
            add(sides[1], "scaled sum above the highest");
        }
        Err(_) => {}
        Ok(_) => {
            let whole = contents::Contents::of(file).expect("an accepted file");
            for (span, (advances, sum)) in whole.spans.iter().zip(whole.sums()) {
                let scaled = span.state == State::Scaled && advances.lowest < advances.highest;
                let at = |end: u32| scaled && u64::from(end) == sum;
                add(at(advances.lowest), "scaled sum at the lowest");
                add(at(advances.highest), "scaled sum at the highest");
            }
        }
    }
}

/// A field of a span; the state more often, as most rules are about it.
fn span_edit(rng: &mut Rng, base: &[u8], span: usize) -> Edit {
    let any = u64::from(rng.word());
    let layout = layout(base);
    let state = rng.pick(&[0, 0, 0, 1, 2, 3, 4, 255]);
    let boundary = rng.pick(&[0, 1, 2, 3, 8, 400, 65_535, any]);
    let advance = rng.pick(&[0, 1, 99_999_999, 100_000_000, any, u64::MAX]);
    let (field, value) = match rng.below(9) {
        0 => (FIRST, boundary),
        1 => (LAST, boundary),
        2 => (LOWEST, advance),
        3 if layout == file::LAYOUT => (HIGHEST, advance),
        4 => (zero_field(layout), rng.pick(&[0, 1, 255])),
        _ => (state_field(layout), state),
    };
    Edit::SpanField { span, field, value }
}

/// An end of a span's range, or R, set at or beside the sum of its slots or the other end.
fn ends_edit(rng: &mut Rng, base: &[u8], span: usize) -> Edit {
    let Some(spans) = contents::Contents::of(base).ok().map(|whole| whole.sums()) else {
        return Edit::AllZero;
    };
    let Some(&(advances, sum)) = spans.get(span) else {
        return Edit::AllZero;
    };
    let (lowest, highest) = (u64::from(advances.lowest), u64::from(advances.highest));
    let to_sum = rng.pick(&[sum, sum + 1, sum.saturating_sub(1)]);
    let in_layout_3 = layout(base) == file::LAYOUT;
    let (field, value) = match rng.below(8) {
        0..3 => (LOWEST, to_sum),
        3..6 if in_layout_3 => (HIGHEST, to_sum),
        6 => (LOWEST, rng.pick(&[highest, highest + 1])),
        7 if in_layout_3 => (HIGHEST, rng.pick(&[lowest, lowest.saturating_sub(1)])),
        _ => (LOWEST, sum),
    };
    Edit::SpanField { span, field, value }
}
