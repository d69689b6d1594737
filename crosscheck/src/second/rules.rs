//! 01, Tests of a slot, Filling and Spans, with W1's agreed values, W2's line, W3's
//! Sundays, W7's shape and W10's widths: from the cells to the outcomes.

use std::ops::Range;

use crate::number::narrowed;
use crate::second::head::{DIAL, Shape};

pub const TIME_CHANGE: u8 = 1;
pub const OUTAGE: u8 = 2;
pub const PARTIAL: u8 = 4;

/// Added to a method when its span was scaled.
pub const SCALED: u8 = 16;

/// The method of an agreed value.
pub const AGREED: u8 = 5;

/// A line fills this many minutes at most.
pub const LINE_MINUTES: usize = 120;

/// What an S value is multiplied by in its shape: any number of references divides it.
const SHAPE: u64 = 12;

/// How many days back references lie at most, of an ordinary day and of a holiday.
pub const FARTHEST: usize = 364;
pub const FARTHEST_SUNDAY: usize = 370;

/// The cells of a book, of the lengths its head asks for.
#[derive(Clone, Copy, Debug)]
pub struct Cells<'a> {
    pub values: &'a [u32],
    pub versions: &'a [u32],
    pub statuses: &'a [u8],
    pub holidays: &'a [u8],
    pub readings: &'a [u32],
    pub read_versions: &'a [u32],
    pub agreed: &'a [u32],
    pub agreed_versions: &'a [u32],
    pub widths: &'a [u16],
}

#[derive(Clone, Copy, Debug, PartialEq, Eq)]
pub enum Cause {
    Gap,
    TimeChange,
    Partial,
    Demand,
}

#[derive(Clone, Copy, Debug, PartialEq, Eq)]
pub enum Quality {
    Actual,
    Substituted,
    None,
    /// F: agreed with the skipper.
    Agreed,
}

/// A slot's outcome.
#[derive(Clone, Copy, Debug, PartialEq, Eq)]
pub struct Slot {
    pub value: u32,
    pub quality: Quality,
    pub method: u8,
}

#[derive(Clone, Copy, Debug, PartialEq, Eq)]
pub enum State {
    Agrees,
    Scaled,
    Open,
    Disagrees,
}

/// A span's outcome.
#[derive(Clone, Copy, Debug, PartialEq, Eq)]
pub struct Span {
    pub first: usize,
    pub last: usize,
    pub advances: Advances,
    pub state: State,
}

/// The advances that the widths of two reads leave, from the lowest to the highest.
#[derive(Clone, Copy, Debug, PartialEq, Eq)]
pub struct Advances {
    pub lowest: u32,
    pub highest: u32,
}

impl Advances {
    /// One advance only, as two reads without a width give it.
    pub fn one(advance: u32) -> Advances {
        Advances {
            lowest: advance,
            highest: advance,
        }
    }

    /// Of two readings with the advance `g`, the earlier one's width and the later one's.
    pub fn between(g: u32, earlier: u16, later: u16) -> Advances {
        let highest = g + u32::from(later);
        if highest < DIAL {
            Advances {
                lowest: g.saturating_sub(earlier.into()),
                highest,
            }
        } else {
            Advances {
                lowest: 0,
                highest: highest - DIAL,
            }
        }
    }

    /// R: the least advance that is at least V; if there is none, the highest.
    pub fn fitted(&self, v: u64) -> u32 {
        narrowed(v.clamp(self.lowest.into(), self.highest.into()))
    }

    /// Whether some advance is within t of V.
    fn within(&self, t: u32, v: u64) -> bool {
        let (lowest, highest, t) = (
            u64::from(self.lowest),
            u64::from(self.highest),
            u64::from(t),
        );
        lowest <= v + t && v <= highest + t
    }
}

/// The outcomes of all slots and spans.
pub fn outcomes(shape: &Shape, cells: &Cells) -> (Vec<Slot>, Vec<Span>) {
    let causes = causes(shape, cells);
    let Filled { mut slots, e } = fill(shape, cells, &causes);
    let spans = advances(cells)
        .into_iter()
        .map(|(first, last, advances)| {
            let range = span_slots(shape, first, last);
            let part = &mut slots[range.clone()];
            let state = state(shape, part, advances);
            if state == State::Scaled {
                let r = advances.fitted(settled_sum(part));
                scale(part, &e[range], r);
            }
            Span {
                first,
                last,
                advances,
                state,
            }
        })
        .collect();
    (slots, spans)
}

/// The slots between two boundaries.
pub fn span_slots(shape: &Shape, first: usize, last: usize) -> Range<usize> {
    first * shape.slots_a_day..last * shape.slots_a_day
}

/// The first cause that applies to each slot; a slot without one is good.
pub fn causes(shape: &Shape, cells: &Cells) -> Vec<Option<Cause>> {
    (0..shape.slots)
        .map(|i| cause(shape, cells.values[i], cells.versions[i], cells.statuses[i]))
        .collect()
}

pub fn cause(shape: &Shape, value: u32, version: u32, status: u8) -> Option<Cause> {
    if version == 0 {
        Some(Cause::Gap)
    } else if status & TIME_CHANGE != 0 {
        Some(Cause::TimeChange)
    } else if status & PARTIAL != 0 {
        Some(Cause::Partial)
    } else if u64::from(value) * 60 > u64::from(shape.limit) * u64::from(shape.interval) {
        Some(Cause::Demand)
    } else {
        None
    }
}

/// Every slot filled, before the step of the spans, with its shape e; 0 where it is no S.
#[derive(Clone, Debug)]
pub struct Filled {
    pub slots: Vec<Slot>,
    pub e: Vec<u64>,
}

pub fn fill(shape: &Shape, cells: &Cells, causes: &[Option<Cause>]) -> Filled {
    let zeroed = outage_gaps(cells, causes);
    let waiting = waiting(cells, causes, &zeroed);
    let line = lines(shape, cells, causes, &waiting);
    let (slots, e) = (0..shape.slots)
        .map(|slot| {
            if causes[slot].is_none() {
                filled(cells.values[slot], Quality::Actual, 0, 0)
            } else if cells.agreed_versions[slot] != 0 {
                // Before the outage rule.
                filled(cells.agreed[slot], Quality::Agreed, AGREED, 0)
            } else if zeroed[slot] {
                filled(0, Quality::Actual, 1, 0)
            } else if let Some(value) = line[slot] {
                filled(value, Quality::Substituted, 2, SHAPE * u64::from(value))
            } else if let Some(mean) = mean(&references(shape, cells, causes, slot)) {
                filled(mean.mean, Quality::Substituted, 3, mean.shape())
            } else {
                filled(0, Quality::None, 0, 0)
            }
        })
        .unzip();
    Filled { slots, e }
}

fn filled(value: u32, quality: Quality, method: u8, e: u64) -> (Slot, u64) {
    let slot = Slot {
        value,
        quality,
        method,
    };
    (slot, e)
}

/// Rule 1: marks the gaps whose longest unbroken run has an outage just before or after.
fn outage_gaps(cells: &Cells, causes: &[Option<Cause>]) -> Vec<bool> {
    // A slot beside a longest run is no gap, so it was delivered.
    let outage = |slot: usize| cells.statuses[slot] & OUTAGE != 0;
    let is_gap = |slot: usize| causes[slot] == Some(Cause::Gap);
    let mut marks = vec![false; causes.len()];
    let mut start = 0;
    while start < causes.len() {
        let mut end = start;
        while end < causes.len() && is_gap(end) {
            end += 1;
        }
        let before = start > 0 && outage(start - 1);
        let after = end < causes.len() && outage(end);
        marks[start..end].fill(before || after);
        // Slot `end` is delivered, so the next run begins after it.
        start = end + 1;
    }
    marks
}

/// Marks the slots with a cause that are neither agreed nor zeroed.
fn waiting(cells: &Cells, causes: &[Option<Cause>], zeroed: &[bool]) -> Vec<bool> {
    (0..causes.len())
        .map(|slot| causes[slot].is_some() && cells.agreed_versions[slot] == 0 && !zeroed[slot])
        .collect()
}

/// The longest unbroken runs of marked slots.
pub fn runs(marks: &[bool]) -> Vec<Range<usize>> {
    let mut runs = Vec::new();
    let mut start = 0;
    for part in marks.chunk_by(|one, next| one == next) {
        let end = start + part.len();
        if part[0] {
            runs.push(start..end);
        }
        start = end;
    }
    runs
}

/// Rule 2: the values of the runs of two hours at most that lie between good slots.
fn lines(
    shape: &Shape,
    cells: &Cells,
    causes: &[Option<Cause>],
    waiting: &[bool],
) -> Vec<Option<u32>> {
    let mut values = vec![None; waiting.len()];
    for run in runs(waiting) {
        let g = run.len();
        // Beside an agreed or zeroed slot, or at an end of the book, a run has no line.
        let Some((before, after)) = good_ends(causes, &run) else {
            continue;
        };
        if g * shape.interval as usize <= LINE_MINUTES {
            let (l, r) = (cells.values[before], cells.values[after]);
            for j in 1..=g {
                values[before + j] = Some(on_line(l, r, j, g));
            }
        }
    }
    values
}

/// The slots just before and after a run, where both exist and are good.
pub fn good_ends(causes: &[Option<Cause>], run: &Range<usize>) -> Option<(usize, usize)> {
    let before = run.start.checked_sub(1)?;
    let after = run.end;
    (after < causes.len() && causes[before].is_none() && causes[after].is_none())
        .then_some((before, after))
}

/// The j-th of g slots between l and r: l + (r − l) × j / (g + 1), rounded down.
pub fn on_line(l: u32, r: u32, j: usize, g: usize) -> u32 {
    let rise = (i64::from(r) - i64::from(l)) * j as i64;
    narrowed(i64::from(l) + rise.div_euclid(g as i64 + 1))
}

/// Rule 3: up to four values of the same position on earlier days, nearest day first.
pub fn references(shape: &Shape, cells: &Cells, causes: &[Option<Cause>], slot: usize) -> Vec<u32> {
    reference_slots(shape, cells, causes, slot)
        .map(|earlier| cells.values[earlier])
        .take(4)
        .collect()
}

/// Every slot that counts as a reference, nearest day first.
pub fn reference_slots(
    shape: &Shape,
    cells: &Cells,
    causes: &[Option<Cause>],
    slot: usize,
) -> impl Iterator<Item = usize> {
    let day = slot / shape.slots_a_day;
    let (nearest, farthest) = if cells.holidays[day] == 0 {
        (7, FARTHEST)
    } else {
        (sunday_back(shape.first_day as usize + day), FARTHEST_SUNDAY)
    };
    (nearest..=farthest)
        .step_by(7)
        .map_while(move |back| slot.checked_sub(back * shape.slots_a_day))
        .filter(|&earlier| {
            causes[earlier].is_none()
                && cells.statuses[earlier] & OUTAGE == 0
                && cells.holidays[earlier / shape.slots_a_day] == 0
        })
}

/// How many days the nearest Sunday lies before a day, 1 to 7; day 0 was a Saturday.
pub fn sunday_back(day_number: usize) -> usize {
    (day_number + 5) % 7 + 1
}

/// A mean rounded down, with what that drops: mean × number + remainder is the sum.
#[derive(Clone, Copy, Debug, PartialEq, Eq)]
pub struct Mean {
    pub mean: u32,
    pub remainder: u32,
    pub number: u32,
}

/// None of no values.
pub fn mean(values: &[u32]) -> Option<Mean> {
    let sum: u64 = values.iter().map(|&value| u64::from(value)).sum();
    let number = values.len() as u64;
    (number > 0).then(|| Mean {
        mean: narrowed(sum / number),
        remainder: narrowed(sum % number),
        number: narrowed(number),
    })
}

impl Mean {
    /// 12 × sum / number, whole for one to four values.
    pub fn shape(&self) -> u64 {
        let part = SHAPE / u64::from(self.number);
        SHAPE * u64::from(self.mean) + part * u64::from(self.remainder)
    }
}

/// First boundary, last boundary and advances between neighbouring boundaries that were read.
fn advances(cells: &Cells) -> Vec<(usize, usize, Advances)> {
    let read: Vec<usize> = (0..cells.read_versions.len())
        .filter(|&boundary| cells.read_versions[boundary] != 0)
        .collect();
    read.windows(2)
        .map(|pair| {
            let (first, last) = (pair[0], pair[1]);
            let g = advance(cells.readings[first], cells.readings[last]);
            let advances = Advances::between(g, cells.widths[first], cells.widths[last]);
            (first, last, advances)
        })
        .collect()
}

/// G: (later − earlier) mod 100,000,000, of two readings of the dial.
pub fn advance(earlier: u32, later: u32) -> u32 {
    (later + DIAL - earlier) % DIAL
}

/// V: the sum of the A and F slots.
pub fn settled_sum(slots: &[Slot]) -> u64 {
    slots
        .iter()
        .filter(|slot| matches!(slot.quality, Quality::Actual | Quality::Agreed))
        .map(|slot| u64::from(slot.value))
        .sum()
}

fn state(shape: &Shape, slots: &[Slot], advances: Advances) -> State {
    let has = |quality| slots.iter().any(|slot| slot.quality == quality);
    let v = settled_sum(slots);
    let r = u64::from(advances.fitted(v));
    if has(Quality::None) {
        State::Open
    } else if has(Quality::Substituted) {
        if r >= v {
            State::Scaled
        } else {
            State::Disagrees
        }
    } else if advances.within(shape.tolerance, v) {
        State::Agrees
    } else {
        State::Disagrees
    }
}

/// Shares T = R − V out over the S slots by running sums of their shapes, so that no Wh
/// is lost.
pub fn scale(slots: &mut [Slot], e: &[u64], advance: u32) {
    let t = u128::from(advance) - u128::from(settled_sum(slots));
    let mut shares: Vec<(&mut Slot, u128)> = slots
        .iter_mut()
        .zip(e)
        .filter(|(slot, _)| slot.quality == Quality::Substituted)
        .map(|(slot, &e)| (slot, e.into()))
        .collect();
    if shares.iter().all(|&(_, e)| e == 0) {
        shares.iter_mut().for_each(|(_, e)| *e = 1);
    }
    let total: u128 = shares.iter().map(|&(_, e)| e).sum();
    let mut before = 0;
    for (slot, e) in shares {
        let with = before + e;
        slot.value = narrowed(t * with / total - t * before / total);
        slot.method += SCALED;
        before = with;
    }
}
