//! Which classes the runs of a published book fall in: W2.

use std::ops::Range;

use crate::census::counts::{Counts, NUMBERS};
use crate::second::head::Shape;
use crate::second::rules::{self, Cause, Cells, LINE_MINUTES, OUTAGE, Quality, Slot, Span};

/// A book's cells with what the rules made of them.
pub struct Runs<'a> {
    pub shape: &'a Shape,
    pub cells: &'a Cells<'a>,
    pub causes: &'a [Option<Cause>],
    /// The slots before the step of the spans.
    pub filled: &'a [Slot],
    /// The slots after it.
    pub slots: &'a [Slot],
    pub spans: &'a [Span],
}

impl Runs<'_> {
    /// Counts every run of slots with a cause, not agreed and not zeroed.
    pub fn count(&self, counts: &mut Counts) {
        let waiting: Vec<bool> = self
            .filled
            .iter()
            .map(|slot| matches!(slot.quality, Quality::Substituted | Quality::None))
            .collect();
        for run in rules::runs(&waiting) {
            let short = run.len() <= self.longest();
            match rules::good_ends(self.causes, &run) {
                Some(ends) => {
                    self.length(run.len(), counts);
                    if short {
                        self.line(&run, ends, counts);
                    } else {
                        self.long(&run, counts);
                    }
                }
                None if short => self.no_line(&run, counts),
                None => {}
            }
        }
    }

    fn longest(&self) -> usize {
        LINE_MINUTES / self.shape.interval as usize
    }

    /// g of a run between good slots, up to one more than a line may have.
    fn length(&self, g: usize, counts: &mut Counts) {
        let group = match self.shape.interval {
            5 => "run between good slots, L 5",
            15 => "run between good slots, L 15",
            _ => "run between good slots, L 30",
        };
        if g <= self.longest() + 1 {
            counts.add(group, NUMBERS[g]);
        }
    }

    fn line(&self, run: &Range<usize>, (before, after): (usize, usize), counts: &mut Counts) {
        let g = run.len() as i64;
        let rise = i64::from(self.cells.values[after]) - i64::from(self.cells.values[before]);
        let whole = (1..=g).all(|j| rise * j % (g + 1) == 0);
        let causes = self.causes_in(run);
        let outage = |slot: usize| self.cells.statuses[slot] & OUTAGE != 0;
        let n = self.shape.slots_a_day;
        let over = |slot: usize| run.start < slot && slot < run.end;
        let mut add = |occurred, name| counts.add_if(occurred, "line", name);
        // A single slot fills as before.
        add(g > 1 && rise < 0, "falling");
        add(g > 1 && rise > 0, "rising");
        add(g > 1 && rise == 0, "level");
        add(g > 1 && rise < 0 && !whole, "falling, rounded");
        add(g > 1 && rise > 0 && !whole, "rising, rounded");
        add(causes > 1, "mixed causes");
        add(causes == 4, "all four causes");
        add(outage(before) || outage(after), "beside an outage");
        let gap = |slot: usize| self.causes[slot] == Some(Cause::Gap);
        add(!run.clone().any(gap), "of delivered slots");
        let day_ends = (1..self.shape.days).map(|day| day * n);
        add(day_ends.into_iter().any(over), "over a day's end");
        let mut span_ends = self.spans.iter().map(|span| span.last * n);
        add(span_ends.any(over), "over a span's end");
        let scaled = |slot: &Slot| slot.method == 2 + rules::SCALED;
        let outcomes = &self.slots[run.clone()];
        let part = outcomes.iter().any(scaled) && !outcomes.iter().all(scaled);
        add(part, "part of it scaled");
    }

    /// A run of more than two hours goes on slot by slot.
    fn long(&self, run: &Range<usize>, counts: &mut Counts) {
        let has = |quality| {
            let mut filled = self.filled[run.clone()].iter();
            filled.any(|slot| slot.quality == quality)
        };
        let both = has(Quality::Substituted) && has(Quality::None);
        counts.add_if(both, "no line", "longer, S and N in it");
    }

    /// A run short enough that has no good slot on one side, and one on the other.
    fn no_line(&self, run: &Range<usize>, counts: &mut Counts) {
        let slot = |at: usize| self.filled.get(at).map(|slot| (slot.quality, slot.method));
        let before = run.start.checked_sub(1).and_then(slot);
        let after = slot(run.end);
        let good = Some((Quality::Actual, 0));
        let names = [
            (None, "at the first slot", "at the last slot"),
            (Some((Quality::Agreed, 5)), "agreed before", "agreed after"),
            (Some((Quality::Actual, 1)), "zeroed before", "zeroed after"),
        ];
        for (end, name_before, name_after) in names {
            counts.add_if(before == end && after == good, "no line", name_before);
            counts.add_if(after == end && before == good, "no line", name_after);
        }
        let mut filled = self.filled[run.clone()].iter();
        let referred = filled.any(|slot| slot.quality == Quality::Substituted);
        counts.add_if(referred, "no line", "short, but references");
    }

    /// How many different causes a run has.
    fn causes_in(&self, run: &Range<usize>) -> usize {
        [Cause::Gap, Cause::TimeChange, Cause::Partial, Cause::Demand]
            .into_iter()
            .filter(|&cause| self.causes[run.clone()].contains(&Some(cause)))
            .count()
    }
}
