//! Which classes the fitting of a published book's spans falls in: W7.

use crate::census::counts::Counts;
use crate::second::head::Shape;
use crate::second::rules::{self, Cause, Cells, Filled, Quality, SCALED, Slot, Span, State};

pub const FRACTIONS: &str = "scaled, references and remainder";
pub const FRACTION_NAMES: &[&str] = &["1, 0", "2, 0", "2, 1", "3, 0", "3, 1", "3, 2"];
pub const FOURS: &str = "scaled, four references and remainder";
pub const FOUR_NAMES: &[&str] = &["0", "1", "2", "3"];

/// A book's cells with what the rules made of them.
pub struct Fits<'a> {
    pub shape: &'a Shape,
    pub cells: &'a Cells<'a>,
    pub causes: &'a [Option<Cause>],
    /// The slots before the step of the spans, and their shapes.
    pub filled: &'a Filled,
    /// The slots after it.
    pub slots: &'a [Slot],
    pub spans: &'a [Span],
}

impl Fits<'_> {
    pub fn count(&self, counts: &mut Counts) {
        let mut in_spans = vec![None; self.shape.slots];
        for span in self.spans {
            let range = rules::span_slots(self.shape, span.first, span.last);
            in_spans[range].fill(Some(span.state));
            if span.state == State::Scaled {
                self.scaled(span, counts);
            }
        }
        for (slot, state) in in_spans.into_iter().enumerate() {
            if self.filled.slots[slot].method == 3 {
                self.same_day(slot, state, counts);
            }
        }
    }

    /// One slot with references, in a span of this state or in none.
    fn same_day(&self, slot: usize, state: Option<State>, counts: &mut Counts) {
        let values = rules::references(self.shape, self.cells, self.causes, slot);
        let Some(mean) = rules::mean(&values) else {
            return;
        };
        let dropped = mean.remainder > 0;
        let remainder = mean.remainder as usize;
        match state {
            Some(State::Scaled) if mean.number == 4 => counts.add(FOURS, FOUR_NAMES[remainder]),
            Some(State::Scaled) => {
                let first = [0, 0, 1, 3][mean.number as usize];
                counts.add(FRACTIONS, FRACTION_NAMES[first + remainder]);
            }
            Some(State::Open) => counts.add_if(dropped, "shape", "remainder, open span"),
            Some(State::Disagrees) => counts.add_if(dropped, "shape", "remainder, disagrees"),
            Some(State::Agrees) => {}
            None => counts.add_if(dropped, "shape", "remainder outside spans"),
        }
    }

    fn scaled(&self, span: &Span, counts: &mut Counts) {
        let range = rules::span_slots(self.shape, span.first, span.last);
        let filled = &self.filled.slots[range.clone()];
        let (shapes, slots) = (&self.filled.e[range.clone()], &self.slots[range]);
        let total: u64 = shapes.iter().sum();
        let rounded = rounded_means(filled);
        let v = rules::settled_sum(filled);
        let r = span.advances.fitted(v);
        let mut by_means = filled.to_vec();
        rules::scale(&mut by_means, &rounded, r);
        let apart = |least: u32| {
            let mut pairs = slots.iter().zip(&by_means);
            pairs.any(|(one, other)| one.value.abs_diff(other.value) >= least)
        };
        let has = |method: u8| slots.iter().any(|slot| slot.method == method + SCALED);
        let (lines, references) = (has(2), has(3));
        let mut means = rounded.iter().zip(shapes);
        let dropped = means.any(|(&value, &e)| 12 * value != e);
        let zero_means = rounded.iter().all(|&value| value == 0);
        let t = u128::from(r) - u128::from(v);
        let wide = t * u128::from(total) > i64::MAX as u128;
        let occurred = [
            (apart(1), "fitted otherwise than by rounded means"),
            (apart(2), "two Wh apart from rounded means"),
            (
                dropped && !apart(1),
                "fitted as by rounded means, though a remainder",
            ),
            (dropped && lines && references, "lines beside a remainder"),
            (total > 0 && zero_means, "means of 0, but E not 0"),
            (total == 0 && references && !lines, "E 0 of references"),
            (total == 0 && lines && !references, "E 0 of lines"),
            (total == 0 && lines && references, "E 0 of both"),
            (wide, "T × E over 63 bits"),
        ];
        for (occurred, name) in occurred {
            counts.add_if(occurred, "shape", name);
        }
    }
}

/// The shapes that the rounded values would have.
fn rounded_means(filled: &[Slot]) -> Vec<u64> {
    let shape = |slot: &Slot| match slot.quality {
        Quality::Substituted => slot.value.into(),
        _ => 0,
    };
    filled.iter().map(shape).collect()
}
