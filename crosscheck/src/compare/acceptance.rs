//! 01's sentence "It accepts exactly", with W1's and W10's, once more: what `reader` is held
//! against.
//!
//! One pass over the slots gives each span its tally; the clauses are then read off.

use crate::number::narrowed;
use crate::second::reader::Figures;

#[derive(Clone, Copy, Default)]
struct Tally {
    actual: u64,
    none: u64,
    substituted: u64,
    scaled: u64,
    agreed: u64,
    sum: u64,
}

struct Span {
    first: u16,
    last: u16,
    /// Alike in layouts 1 and 2.
    ends: [u32; 2],
    state: u8,
    last_byte: u8,
}

pub fn read(file: &[u8]) -> Result<Figures, u8> {
    let (tables, t) = file.split_last_chunk::<32>().ok_or(8)?;
    let two = |at: usize| u16::from_le_bytes([t[at], t[at + 1]]);
    let four = |at: usize| u32::from_le_bytes([t[at], t[at + 1], t[at + 2], t[at + 3]]);
    let (first_day, days, interval, spans) = (two(0), two(2), t[4], two(6));
    let head = [5, 15, 30].contains(&interval)
        && (1..=400).contains(&days)
        && u32::from(first_day) + u32::from(days) <= 36_525;
    let record = match t[5] {
        1 | 2 => 10,
        3 => 14,
        _ => return Err(8),
    };
    if !head || four(28) != record * u32::from(spans) {
        return Err(8);
    }
    let slots_a_day = 1440 / usize::from(interval);
    let slots = slots_a_day * usize::from(days);
    if tables.len() != 6 * slots + record as usize * usize::from(spans) {
        return Err(8);
    }
    let figures = Figures {
        first_day: first_day.into(),
        days: days.into(),
        interval: interval.into(),
        spans: spans.into(),
        actual: four(8).into(),
        substituted: four(12).into(),
        none: four(16).into(),
        sum: u64::from(four(20)) | u64::from(four(24)) << 32,
        layout: t[5].into(),
    };
    let (slot_table, span_table) = tables.split_at(6 * slots);
    if contents_hold(slot_table, span_table, slots_a_day, &figures) {
        Ok(figures)
    } else {
        Err(9)
    }
}

fn contents_hold(
    slot_table: &[u8],
    span_table: &[u8],
    slots_a_day: usize,
    figures: &Figures,
) -> bool {
    let spans: Vec<Span> = match figures.layout {
        3 => span_table.as_chunks().0.iter().map(span).collect(),
        _ => span_table.as_chunks().0.iter().map(span_before).collect(),
    };
    let days = narrowed(figures.days);
    let bounds = spans
        .iter()
        .all(|span| span.first < span.last && usize::from(span.last) <= days);
    let chain = spans.windows(2).all(|pair| pair[0].last == pair[1].first);
    if !bounds || !chain {
        return false;
    }
    let Some(tallies) = tallies(slot_table, slots_a_day, &spans, days) else {
        return false;
    };
    let outside = tallies[spans.len()];
    spans
        .iter()
        .zip(&tallies)
        .all(|(span, tally)| span_holds(span, tally))
        && outside.scaled == 0
        && counts_hold(&tallies, figures)
}

/// The tally of each span, and one more for the days outside; none where a record is no record.
fn tallies(
    slot_table: &[u8],
    slots_a_day: usize,
    spans: &[Span],
    days: usize,
) -> Option<Vec<Tally>> {
    let owner = owners(spans, days);
    let mut tallies = vec![Tally::default(); spans.len() + 1];
    for (slot, record) in slot_table.chunks_exact(6).enumerate() {
        tallies[owner[slot / slots_a_day]].add(record)?;
    }
    Some(tallies)
}

/// The span each day lies in; the one more at the end takes the days outside.
fn owners(spans: &[Span], days: usize) -> Vec<usize> {
    let mut owner = vec![spans.len(); days];
    for (i, span) in spans.iter().enumerate() {
        owner[span.first.into()..span.last.into()].fill(i);
    }
    owner
}

impl Tally {
    fn add(&mut self, record: &[u8]) -> Option<()> {
        let value = u32::from_le_bytes([record[0], record[1], record[2], record[3]]);
        match (record[4] as char, record[5], value) {
            ('A', 0, _) | ('A', 1, 0) => self.actual += 1,
            ('S', 2 | 3, _) => self.substituted += 1,
            ('S', 18 | 19, _) => {
                self.substituted += 1;
                self.scaled += 1;
            }
            ('N', 0, 0) => self.none += 1,
            ('F', 5, 0..100_000_000) => self.agreed += 1,
            _ => return None,
        }
        self.sum += u64::from(value);
        Some(())
    }
}

/// The trailer's counts and sum, and what its layout says of F.
fn counts_hold(tallies: &[Tally], figures: &Figures) -> bool {
    let total = |part: fn(&Tally) -> u64| tallies.iter().map(part).sum::<u64>();
    total(|tally| tally.actual) == figures.actual
        && total(|tally| tally.substituted + tally.agreed) == figures.substituted
        && match figures.layout {
            1 => total(|tally| tally.agreed) == 0,
            2 => total(|tally| tally.agreed) > 0,
            _ => true,
        }
        && total(|tally| tally.none) == figures.none
        && total(|tally| tally.sum) == figures.sum
}

/// A record of layout 3.
fn span(record: &[u8; 14]) -> Span {
    let [a, b, c, d, e, f, g, h, i, j, k, l, state, last_byte] = *record;
    Span {
        first: u16::from_le_bytes([a, b]),
        last: u16::from_le_bytes([c, d]),
        ends: [
            u32::from_le_bytes([e, f, g, h]),
            u32::from_le_bytes([i, j, k, l]),
        ],
        state,
        last_byte,
    }
}

/// A record of layout 1 or 2.
fn span_before(record: &[u8; 10]) -> Span {
    let [a, b, c, d, e, f, g, h, state, last_byte] = *record;
    span(&[a, b, c, d, e, f, g, h, e, f, g, h, state, last_byte])
}

fn span_holds(span: &Span, tally: &Tally) -> bool {
    let [lowest, highest] = span.ends;
    let by_state = match span.state {
        0 => tally.none == 0 && tally.substituted == 0,
        1 => {
            tally.none == 0
                && tally.scaled > 0
                && tally.scaled == tally.substituted
                && (u64::from(lowest)..=u64::from(highest)).contains(&tally.sum)
        }
        2 => tally.none > 0 && tally.scaled == 0,
        3 => tally.none == 0 && tally.scaled == 0,
        _ => false,
    };
    by_state && lowest <= highest && highest <= 99_999_999 && span.last_byte == 0
}
