//! The rules of 01, W1, W2, W3, W7 and W10 once more, each slot and span for itself, as the
//! sentences have them.
//!
//! Slow (scaling sums a whole span anew for each of its slots): it is what `rules`
//! is held against, in all but the largest books.

use std::ops::RangeInclusive;

use crate::number::narrowed;
use crate::second::head::{DIAL, Shape};
use crate::second::rules::{Advances, Cells, Quality, Slot, Span, State};

pub struct Definition<'a> {
    shape: Shape,
    cells: Cells<'a>,
    /// The nearest delivered slot before and after each slot.
    nearest: Vec<(Option<usize>, Option<usize>)>,
    /// Value, quality and method of each slot before the step of the spans.
    filled: Vec<(u64, Quality, u8)>,
    /// The shape of each slot.
    shapes: Vec<u128>,
}

impl<'a> Definition<'a> {
    pub fn new(shape: Shape, cells: Cells<'a>) -> Definition<'a> {
        let mut new = Definition {
            shape,
            cells,
            nearest: nearest_delivered(cells.versions),
            filled: Vec::new(),
            shapes: Vec::new(),
        };
        new.filled = (0..shape.slots).map(|slot| new.fill(slot)).collect();
        new.shapes = (0..shape.slots).map(|slot| new.shape_of(slot)).collect();
        new
    }

    pub fn outcomes(&self) -> (Vec<Slot>, Vec<Span>) {
        let spans = self.spans();
        let slots = (0..self.shape.slots)
            .map(|slot| self.outcome(slot, &spans))
            .collect();
        (slots, spans.into_iter().map(|(span, _)| span).collect())
    }

    fn delivered(&self, slot: usize) -> bool {
        self.cells.versions[slot] > 0
    }

    fn bit(&self, slot: usize, bit: u32) -> bool {
        self.cells.statuses[slot] >> bit & 1 == 1
    }

    fn good(&self, slot: usize) -> bool {
        let watts = u64::from(self.cells.values[slot]) * (60 / u64::from(self.shape.interval));
        // L divides 60, so value × 60 > limit × L is value × (60 / L) > limit.
        self.delivered(slot)
            && !self.bit(slot, 0)
            && !self.bit(slot, 2)
            && watts <= u64::from(self.shape.limit)
    }

    /// The nearest delivered slots on both sides end a gap's longest unbroken run.
    fn outage_zero(&self, slot: usize) -> bool {
        let (before, after) = self.nearest[slot];
        let outage = |end: Option<usize>| end.is_some_and(|end| self.bit(end, 1));
        !self.delivered(slot) && (outage(before) || outage(after))
    }

    /// A cause, and not agreed or zeroed.
    fn in_a_run(&self, slot: usize) -> bool {
        !self.good(slot) && self.cells.agreed_versions[slot] == 0 && !self.outage_zero(slot)
    }

    /// The value on the line from the good slot before the run to the one after.
    fn linear(&self, slot: usize) -> Option<u64> {
        // Both ends of a run that is short enough are within two hours of each slot.
        let reach = 120 / self.shape.interval as usize;
        let outside = |other: &usize| !self.in_a_run(*other);
        let before = (0..slot).rev().take(reach).find(outside)?;
        let after = (slot + 1..self.shape.slots).take(reach).find(outside)?;
        let g = after - before - 1;
        if g > reach || !self.good(before) || !self.good(after) {
            return None;
        }
        // Each end weighs by how near it is, in steps from one end to the other.
        let value = |other: usize| u64::from(self.cells.values[other]);
        let (from_before, to_after) = ((slot - before) as u64, (after - slot) as u64);
        let weighed = value(before) * to_after + value(after) * from_before;
        Some(weighed / (from_before + to_after))
    }

    /// Whether a day may give references to a later one, `back` days on.
    fn refers(&self, day: usize, back: usize) -> bool {
        if self.cells.holidays[day] == 0 {
            return back.is_multiple_of(7) && back <= 364;
        }
        // Day 1, 2000-01-02, was a Sunday.
        let sunday = (self.shape.first_day as usize + day - back) % 7 == 1;
        sunday && back <= 370
    }

    /// The sum and the number of a slot's references.
    fn same_day(&self, slot: usize) -> Option<(u64, u64)> {
        let position = slot % self.shape.slots_a_day;
        let day = slot / self.shape.slots_a_day;
        let mut sum = 0;
        let mut found = 0;
        for back in (1..=day).filter(|&back| self.refers(day, back)) {
            let earlier = (day - back) * self.shape.slots_a_day + position;
            let holiday = self.cells.holidays[day - back] == 1;
            if self.good(earlier) && !self.bit(earlier, 1) && !holiday && found < 4 {
                sum += u64::from(self.cells.values[earlier]);
                found += 1;
            }
        }
        (found > 0).then_some((sum, found))
    }

    fn fill(&self, slot: usize) -> (u64, Quality, u8) {
        if self.good(slot) {
            (u64::from(self.cells.values[slot]), Quality::Actual, 0)
        } else if self.cells.agreed_versions[slot] > 0 {
            (u64::from(self.cells.agreed[slot]), Quality::Agreed, 5)
        } else if self.outage_zero(slot) {
            (0, Quality::Actual, 1)
        } else if let Some(value) = self.linear(slot) {
            (value, Quality::Substituted, 2)
        } else if let Some((sum, found)) = self.same_day(slot) {
            (sum / found, Quality::Substituted, 3)
        } else {
            (0, Quality::None, 0)
        }
    }

    /// A line's value in twelfths, and of references the exact mean in twelfths.
    fn shape_of(&self, slot: usize) -> u128 {
        match self.filled[slot] {
            (value, _, 2) => 12 * u128::from(value),
            (_, _, 3) => {
                let (sum, found) = self.same_day(slot).unwrap_or((0, 1));
                u128::from(sum) * 12 / u128::from(found)
            }
            _ => 0,
        }
    }

    /// Each span with its R.
    fn spans(&self) -> Vec<(Span, i64)> {
        let read = |boundary: &usize| self.cells.read_versions[*boundary] > 0;
        (0..self.shape.days)
            .filter(read)
            .filter_map(|first| {
                let last = (first + 1..=self.shape.days).find(read)?;
                Some(self.span(first, last))
            })
            .collect()
    }

    /// The advances from one boundary to another.
    fn advances(&self, first: usize, last: usize) -> RangeInclusive<i64> {
        let later = i64::from(self.cells.readings[last]);
        let earlier = i64::from(self.cells.readings[first]);
        let dial = i64::from(DIAL);
        let g = (later - earlier).rem_euclid(dial);
        let u = i64::from(self.cells.widths[first]);
        let v = i64::from(self.cells.widths[last]);
        if g + v >= dial {
            0..=g + v - dial
        } else {
            0.max(g - u)..=g + v
        }
    }

    fn span(&self, first: usize, last: usize) -> (Span, i64) {
        let mut advances = self.advances(first, last);
        let mut v = 0;
        let mut substituted = false;
        let mut none = false;
        for slot in first * self.shape.slots_a_day..last * self.shape.slots_a_day {
            match self.filled[slot] {
                (value, Quality::Actual | Quality::Agreed, _) => v += value as i64,
                (_, Quality::Substituted, _) => substituted = true,
                (_, Quality::None, _) => none = true,
            }
        }
        let ends = Advances {
            lowest: narrowed(*advances.start()),
            highest: narrowed(*advances.end()),
        };
        let t = i64::from(self.shape.tolerance);
        let r = least_from(advances.clone(), v);
        let state = match (none, substituted) {
            (true, _) => State::Open,
            (false, true) if r >= v => State::Scaled,
            (false, false) if advances.any(|advance| (advance - v).abs() <= t) => State::Agrees,
            _ => State::Disagrees,
        };
        let span = Span {
            first,
            last,
            advances: ends,
            state,
        };
        (span, r)
    }

    fn outcome(&self, slot: usize, spans: &[(Span, i64)]) -> Slot {
        let day = slot / self.shape.slots_a_day;
        let (value, quality, method) = self.filled[slot];
        let scaled = spans
            .iter()
            .find(|(span, _)| (span.first..span.last).contains(&day))
            .filter(|(span, _)| span.state == State::Scaled);
        match scaled {
            Some((span, r)) if quality == Quality::Substituted => Slot {
                value: self.scaled(slot, span, *r),
                quality,
                method: method + 16,
            },
            _ => Slot {
                value: narrowed(value),
                quality,
                method,
            },
        }
    }

    /// floor(T × C / E) − floor(T × P / E).
    fn scaled(&self, slot: usize, span: &Span, r: i64) -> u32 {
        let mut t = r as u128;
        let (mut e, mut c, mut p) = (0, 0, 0);
        // The same three sums with each e counted as 1.
        let (mut e1, mut c1, mut p1) = (0, 0, 0);
        for other in span.first * self.shape.slots_a_day..span.last * self.shape.slots_a_day {
            let (value, quality, _) = self.filled[other];
            if matches!(quality, Quality::Actual | Quality::Agreed) {
                t -= u128::from(value);
                continue;
            }
            let shape = self.shapes[other];
            e += shape;
            e1 += 1;
            if other <= slot {
                c += shape;
                c1 += 1;
            }
            if other < slot {
                p += shape;
                p1 += 1;
            }
        }
        if e == 0 {
            (e, c, p) = (e1, c1, p1);
        }
        narrowed(t * c / e - t * p / e)
    }
}

/// R: the least advance in the range that is at least V; if there is none, the highest.
fn least_from(advances: RangeInclusive<i64>, v: i64) -> i64 {
    let highest = *advances.end();
    let mut reaching = advances.filter(|&advance| advance >= v);
    reaching.next().unwrap_or(highest)
}

fn nearest_delivered(versions: &[u32]) -> Vec<(Option<usize>, Option<usize>)> {
    let mut nearest = vec![(None, None); versions.len()];
    for i in 1..versions.len() {
        nearest[i].0 = if versions[i - 1] > 0 {
            Some(i - 1)
        } else {
            nearest[i - 1].0
        };
    }
    for i in (1..versions.len()).rev() {
        nearest[i - 1].1 = if versions[i] > 0 {
            Some(i)
        } else {
            nearest[i].1
        };
    }
    nearest
}
