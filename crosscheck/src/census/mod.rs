//! Which classes the slots and spans of a published book fall in.

pub mod counts;
pub mod days;
pub mod fits;
pub mod ranges;
pub mod runs;

use crate::census::counts::{Counts, HOLIDAYS, LATE_HOLIDAYS, NUMBERS};
use crate::census::fits::Fits;
use crate::census::runs::Runs;
use crate::second::file;
use crate::second::head::Shape;
use crate::second::rules::{
    self, Cause, Cells, FARTHEST_SUNDAY, Filled, Quality, Slot, Span, State,
};

/// A book's cells with what the rules made of them.
pub struct Census<'a> {
    shape: &'a Shape,
    cells: &'a Cells<'a>,
    causes: Vec<Option<Cause>>,
    /// The slots before the step of the spans.
    filled: Vec<Slot>,
    /// Their shapes.
    e: Vec<u64>,
    counts: &'a mut Counts,
}

/// Counts every slot and span.
pub fn take(shape: &Shape, cells: &Cells, (slots, spans): (&[Slot], &[Span]), counts: &mut Counts) {
    let causes = rules::causes(shape, cells);
    let filled = rules::fill(shape, cells, &causes);
    let fits = Fits {
        shape,
        cells,
        causes: &causes,
        filled: &filled,
        slots,
        spans,
    };
    fits.count(counts);
    let Filled { slots: filled, e } = filled;
    let runs = Runs {
        shape,
        cells,
        causes: &causes,
        filled: &filled,
        slots,
        spans,
    };
    runs.count(counts);
    ranges::ranges(shape, cells, (&filled, spans), counts);
    let mut census = Census {
        shape,
        cells,
        causes,
        filled,
        e,
        counts,
    };
    census.slots(slots);
    spans.iter().for_each(|span| census.span(span));
    census.agreed_outside(spans);
    census.whole(slots, spans);
}

impl Census<'_> {
    fn slots(&mut self, slots: &[Slot]) {
        for (slot, outcome) in slots.iter().enumerate() {
            self.slot(slot, outcome);
        }
    }

    /// What the file is as a whole.
    fn whole(&mut self, slots: &[Slot], spans: &[Span]) {
        let covered: usize = spans.iter().map(|span| span.last - span.first).sum();
        let name = match file::layout_before(slots) {
            file::LAYOUT_PLAIN => "3 published without an F",
            _ => "3 published with an F",
        };
        self.counts.add("layout", name);
        let outside = !spans.is_empty() && covered < self.shape.days;
        self.counts.add_if(outside, "span", "slots outside");
    }

    fn outage(&self, slot: usize) -> bool {
        self.cells.versions[slot] != 0 && self.cells.statuses[slot] & rules::OUTAGE != 0
    }

    fn holiday(&self, slot: usize) -> bool {
        self.cells.holidays[slot / self.shape.slots_a_day] != 0
    }

    fn slot(&mut self, slot: usize, outcome: &Slot) {
        let cause = match self.causes[slot] {
            None => "good",
            Some(Cause::Gap) => "gap",
            Some(Cause::TimeChange) => "time change",
            Some(Cause::Partial) => "partial",
            Some(Cause::Demand) => "demand",
        };
        self.counts.add("cause", cause);
        if self.cells.agreed_versions[slot] != 0 {
            self.agreed(slot);
        }
        let quality = match outcome.quality {
            Quality::Actual => "A",
            Quality::Substituted => "S",
            Quality::None => "N",
            Quality::Agreed => "F",
        };
        self.counts.add("quality", quality);
        let method = match outcome.method {
            0 => "0",
            1 => "1",
            2 => "2",
            3 => "3",
            5 => "5",
            18 => "18",
            _ => "19",
        };
        self.counts.add("method", method);
        self.demand(slot);
        self.scaled_over(outcome);
        match outcome.method {
            1 => self.outage_zero(slot),
            3 | 19 => self.references(slot),
            _ if outcome.quality == Quality::None => self.references(slot),
            _ => {}
        }
    }

    fn agreed(&mut self, slot: usize) {
        let name = match self.causes[slot] {
            None => "agreed on a good slot",
            Some(Cause::Gap) => "agreed beside a gap",
            Some(Cause::TimeChange) => "agreed beside a time change",
            Some(Cause::Partial) => "agreed beside a partial interval",
            Some(Cause::Demand) => "agreed beside a demand",
        };
        self.counts.add("agreed", name);
        if self.causes[slot].is_none() {
            return;
        }
        let value = self.cells.agreed[slot];
        let over = value > self.shape.limit * self.shape.interval / 60;
        let in_run = self.causes[slot] == Some(Cause::Gap) && self.run_beside_outage(slot);
        let counts = &mut self.counts;
        counts.add_if(value == 0, "agreed", "F of value 0");
        counts.add_if(value == 99_999_999, "agreed", "F of value 99,999,999");
        counts.add_if(over, "agreed", "F over the demand limit");
        counts.add_if(in_run, "agreed", "agreed inside a run beside an outage");
    }

    /// Whether a gap's run has an outage just before or after.
    fn run_beside_outage(&self, slot: usize) -> bool {
        let delivered = |other: &usize| self.cells.versions[*other] != 0;
        let before = (0..slot).rev().find(delivered);
        let after = (slot + 1..self.shape.slots).find(delivered);
        [before, after]
            .into_iter()
            .flatten()
            .any(|end| self.outage(end))
    }

    /// A cause and an agreed value.
    fn is_agreed(&self, slot: usize) -> bool {
        self.filled[slot].quality == Quality::Agreed
    }

    fn agreed_outside(&mut self, spans: &[Span]) {
        let inside = |slot: usize| {
            let day = slot / self.shape.slots_a_day;
            spans
                .iter()
                .any(|span| (span.first..span.last).contains(&day))
        };
        let outside = (0..self.shape.slots).any(|slot| self.is_agreed(slot) && !inside(slot));
        self.counts.add_if(outside, "agreed", "F outside spans");
    }

    fn demand(&mut self, slot: usize) {
        let value = self.cells.values[slot];
        let most = self.shape.limit * self.shape.interval / 60;
        let good = self.causes[slot].is_none();
        let demand = self.causes[slot] == Some(Cause::Demand);
        if good && value == most || demand && value == most + 1 {
            self.counts.around_the_limit(self.shape, demand);
        }
        self.counts
            .add_if(demand && value == u32::MAX, "demand", "highest value");
    }

    fn scaled_over(&mut self, outcome: &Slot) {
        let most = self.shape.limit * self.shape.interval / 60;
        let over = outcome.method >= 18 && outcome.value > most;
        self.counts.add_if(over, "span", "new value over the limit");
    }

    fn outage_zero(&mut self, slot: usize) {
        let last = self.shape.slots - 1;
        let before = slot > 0 && self.outage(slot - 1);
        let after = slot < last && self.outage(slot + 1);
        let counts = &mut self.counts;
        counts.add_if(before && !after, "outage zero", "before");
        counts.add_if(after && !before, "outage zero", "after");
        counts.add_if(before && after, "outage zero", "both sides");
        counts.add_if(slot == 0, "outage zero", "run at the first slot");
        counts.add_if(slot == last, "outage zero", "run at the last slot");
        let agreed = |other: usize| self.is_agreed(other) && self.causes[other] == Some(Cause::Gap);
        let beyond = slot > 0 && agreed(slot - 1) || slot < last && agreed(slot + 1);
        self.counts
            .add_if(beyond, "agreed", "outage zero beyond an agreed gap");
    }

    /// A slot that outage zero and linear passed by.
    fn references(&mut self, slot: usize) {
        let referring = rules::reference_slots(self.shape, self.cells, &self.causes, slot);
        let found: Vec<usize> = referring.take(4).collect();
        self.counts.add("references", NUMBERS[found.len()]);
        if slot > 0 && slot + 1 < self.shape.slots {
            let filled_neighbour = [slot - 1, slot + 1].into_iter().any(|other| {
                self.causes[other].is_some() && self.filled[other].quality != Quality::None
            });
            self.counts
                .add_if(filled_neighbour, "no line", "none from a filled neighbour");
            let good = |other: usize| self.causes[other].is_none();
            let (before, after) = (slot - 1, slot + 1);
            let no_line =
                self.is_agreed(before) && good(after) || good(before) && self.is_agreed(after);
            self.counts
                .add_if(no_line, "agreed", "no line from an agreed neighbour");
        }
        if self.holiday(slot) {
            self.sundays(slot, &found);
        } else {
            self.weeks(slot, found.len());
        }
    }

    /// The gaps before the nearest reference of a slot, whose earlier weeks are given.
    fn passed(&mut self, earlier: impl Fn(usize) -> Option<usize>) {
        let gap = |week: &usize| earlier(*week).map(|at| self.causes[at]) == Some(Some(Cause::Gap));
        let gaps = (1..).take_while(gap).count();
        let name = match gaps {
            3 => "behind three gaps",
            4 => "behind four gaps",
            8 => "behind eight gaps",
            _ => return,
        };
        let referring = earlier(gaps + 1).is_some_and(|nearest| self.refers(nearest));
        self.counts.add_if(referring, "references", name);
    }

    /// An ordinary day's slot, with so many references.
    fn weeks(&mut self, slot: usize, found: usize) {
        let earlier = |week: usize| slot.checked_sub(week * 7 * self.shape.slots_a_day);
        if let Some(oldest) = earlier(52) {
            let only = found == 1 && self.refers(oldest);
            self.counts.add_if(only, "references", "only 52 weeks back");
        }
        if let Some(oldest) = earlier(53) {
            let none = found == 0 && self.refers(oldest);
            self.counts.add_if(none, "references", "only 53 weeks back");
        }
        self.passed(earlier);
        if let Some(week) = earlier(1) {
            self.skipped(week);
            let agreed = self.is_agreed(week);
            self.counts
                .add_if(agreed, "agreed", "no reference from an agreed week");
        }
    }

    /// Good, without an outage, on no holiday.
    fn refers(&self, slot: usize) -> bool {
        self.causes[slot].is_none() && !self.outage(slot) && !self.holiday(slot)
    }

    /// Good, on a holiday or on none, and no reference all the same.
    fn is_passed(&self, slot: usize, holiday: bool) -> bool {
        self.causes[slot].is_none() && self.holiday(slot) == holiday && !self.refers(slot)
    }

    /// How many references a holiday has whose last Sunday is k days back.
    fn sundays_found(&mut self, k: usize, day: usize, many: usize) {
        self.counts.add(HOLIDAYS[k - 1], NUMBERS[many]);
        if day >= FARTHEST_SUNDAY {
            self.counts.add(LATE_HOLIDAYS[k - 1], NUMBERS[many]);
        }
    }

    /// A holiday's slot, with the references found.
    fn sundays(&mut self, slot: usize, found: &[usize]) {
        let (n, day) = (self.shape.slots_a_day, slot / self.shape.slots_a_day);
        let k = rules::sunday_back(self.shape.first_day as usize + day);
        self.sundays_found(k, day, found.len());
        let earlier = |days: usize| slot.checked_sub(days * n);
        let refers = |days: usize| earlier(days).is_some_and(|other| self.refers(other));
        let used = |days: usize| earlier(days).is_some_and(|other| found.contains(&other));
        let none = found.is_empty();
        // How far back the search went.
        let searched = match found {
            [_, _, _, last] => (slot - last) / n,
            _ => FARTHEST_SUNDAY.min(day),
        };
        let passed = |holiday: bool| {
            let mut sundays = (k..=searched).step_by(7).filter_map(earlier);
            sundays.any(|other| self.is_passed(other, holiday))
        };
        let occurred = [
            (used(370), "370 days back"),
            (used(370) && found.len() == 1, "only 370 days back"),
            ((365..370).any(used), "365 to 369 days back"),
            (k == 7 && used(364), "364 days back, of a Sunday"),
            (k == 7 && none && refers(371), "none 371 days back"),
            (
                none && refers(k + 53 * 7),
                "none from the 54th or a Sunday's 53rd",
            ),
            (passed(true), "a holiday passed over"),
            (passed(false), "an outage passed over"),
            (k > day, "no Sunday in the book"),
            (k < 7 && none && refers(7), "none from its own weekday"),
            (
                k < 7 && !none && !refers(7),
                "where the week before has none",
            ),
        ];
        for (occurred, name) in occurred {
            self.counts.add_if(occurred, "Sundays", name);
        }
    }

    fn skipped(&mut self, slot: usize) {
        let name = match self.causes[slot] {
            Some(Cause::Gap) => "gap",
            Some(_) => "failed",
            None if self.outage(slot) => "outage",
            None if self.holiday(slot) => "holiday",
            None => return,
        };
        self.counts.add("earlier week skipped", name);
    }

    fn span(&mut self, span: &Span) {
        let range = rules::span_slots(self.shape, span.first, span.last);
        let filled = &self.filled[range.clone()];
        let has = |quality| filled.iter().any(|slot| slot.quality == quality);
        let v = rules::settled_sum(filled);
        let fit = Fit {
            state: span.state,
            actual: !has(Quality::Substituted) && !has(Quality::None),
            agreed: has(Quality::Agreed),
            r: span.advances.fitted(v).into(),
            v,
            t: self.shape.tolerance.into(),
        };
        let e: u64 = self.e[range].iter().sum();
        let scaled = span.state == State::Scaled;
        let wrapped = self.cells.readings[span.last] < self.cells.readings[span.first];
        let counts = &mut self.counts;
        let states = ["0", "1", "2", "3"];
        let number = usize::from(file::state_number(span.state));
        counts.add("span state", states[number]);
        counts.add_if(wrapped, "span", "dial wrapped");
        counts.add_if(scaled && e == 0, "span", "E 0");
        let within = [
            "F in a span of state 0",
            "F in a span of state 1",
            "F in a span of state 2",
            "F in a span of state 3",
        ];
        counts.add_if(fit.agreed, "agreed", within[number]);
        fit.count(counts);
    }
}

/// How R lies to V and t in a span.
struct Fit {
    state: State,
    /// Neither S nor N.
    actual: bool,
    /// An F.
    agreed: bool,
    r: u64,
    v: u64,
    t: u64,
}

impl Fit {
    fn count(&self, counts: &mut Counts) {
        let &Fit { r, v, t, .. } = self;
        let (actual, agreed) = (self.actual, self.agreed);
        let scaled = self.state == State::Scaled;
        let below = self.state == State::Disagrees && !actual;
        let at_edge = agreed && actual && t > 0 && r == v + t;
        counts.add_if(at_edge, "agreed", "R = V + t with an F");
        counts.add_if(
            agreed && scaled && r == v,
            "agreed",
            "R = V with an F, scaled",
        );
        let one_below = agreed && below && r + 1 == v;
        counts.add_if(one_below, "agreed", "R = V - 1 with an F, disagrees");
        counts.add_if(r == 0, "span", "R 0");
        counts.add_if(scaled && r == v, "span", "R = V, scaled");
        counts.add_if(below && r + 1 == v, "span", "R = V - 1, disagrees");
        counts.add_if(actual && t > 0 && r == v + t, "span", "R = V + t");
        counts.add_if(actual && r == v + t + 1, "span", "R = V + t + 1");
        counts.add_if(actual && t > 0 && r + t == v, "span", "R = V - t");
        counts.add_if(actual && r + t + 1 == v, "span", "R = V - t - 1");
    }
}
