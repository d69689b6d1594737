//! 02, W14: what one more delivery at slot i may move.

use std::ops::Range;

use crate::second::file::{SLOT_BYTES, TRAILER_BYTES};
use crate::second::head::Shape;
use crate::second::lists::Lists;
use crate::second::rules;

/// A record of layout 3.
const SPAN_BYTES: usize = 14;

/// W14's sentence, or one that leaves a part of it out.
#[derive(Clone, Copy, Debug, PartialEq, Eq)]
pub struct Sentence {
    /// The runs that hold i, and those that touch it.
    pub holding: bool,
    pub touching: bool,
    /// How many days later the same position may move, and on a holiday.
    pub weeks: usize,
    pub sundays: usize,
    pub spans: bool,
}

pub const W14: Sentence = Sentence {
    holding: true,
    touching: true,
    weeks: 364,
    sundays: 370,
    spans: true,
};

/// The clauses that a slot falls under.
#[derive(Clone, Copy, Debug, Default, PartialEq, Eq)]
pub struct Clauses {
    pub itself: bool,
    /// In a run that holds i, in the book before and in the one after.
    pub held_before: bool,
    pub held_after: bool,
    /// In a run that ends just before i, or begins just behind it, in either book.
    pub precedes: bool,
    pub follows: bool,
    /// So many weeks later, on no holiday.
    pub week: bool,
    /// On a holiday, i on a Sunday.
    pub sunday: bool,
    /// In a span that holds one of these.
    pub span: bool,
}

impl Clauses {
    pub fn run(&self) -> bool {
        self.held_before || self.held_after || self.precedes || self.follows
    }

    /// Any clause but that of the spans.
    pub fn direct(&self) -> bool {
        self.itself || self.run() || self.week || self.sunday
    }

    pub fn any(&self) -> bool {
        self.direct() || self.span
    }
}

/// The books before and after a stored delivery.
pub struct Books<'a> {
    pub shape: &'a Shape,
    pub before: &'a Lists,
    pub after: &'a Lists,
    /// The slot it was for.
    pub i: usize,
}

/// The clauses of each slot, and the spans with whether they hold one of these.
pub struct Reach {
    pub slots: Vec<Clauses>,
    pub spans: Vec<(Range<usize>, bool)>,
}

impl Books<'_> {
    pub fn reach(&self, sentence: &Sentence) -> Reach {
        let mut slots = vec![Clauses::default(); self.shape.slots];
        slots[self.i].itself = true;
        self.runs(sentence, &mut slots);
        self.later_days(sentence, &mut slots);
        let direct: Vec<bool> = slots.iter().map(Clauses::direct).collect();
        let spans = self.spans().into_iter().map(|range| {
            let held = sentence.spans && direct[range.clone()].contains(&true);
            (range, held)
        });
        let spans: Vec<(Range<usize>, bool)> = spans.collect();
        for (range, held) in &spans {
            let inside = &mut slots[range.clone()];
            inside.iter_mut().for_each(|slot| slot.span = *held);
        }
        Reach { slots, spans }
    }

    fn with_cause(&self, lists: &Lists) -> Vec<bool> {
        let causes = rules::causes(self.shape, &lists.cells());
        causes.iter().map(Option::is_some).collect()
    }

    /// The unbroken runs of slots with a cause that hold or touch i in either book.
    fn runs(&self, sentence: &Sentence, slots: &mut [Clauses]) {
        for (lists, later) in [(self.before, false), (self.after, true)] {
            for run in rules::runs(&self.with_cause(lists)) {
                let holds = sentence.holding && run.contains(&self.i);
                let precedes = sentence.touching && run.end == self.i;
                let follows = sentence.touching && run.start == self.i + 1;
                for slot in &mut slots[run] {
                    slot.held_before |= holds && !later;
                    slot.held_after |= holds && later;
                    slot.precedes |= precedes;
                    slot.follows |= follows;
                }
            }
        }
    }

    /// Slots of i's position with a cause; a holiday looks at Sundays and no other day at
    /// anything but its own weekday.
    fn later_days(&self, sentence: &Sentence, slots: &mut [Clauses]) {
        let n = self.shape.slots_a_day;
        let day = self.i / n;
        // 2000-01-02 was a Sunday.
        let sunday = (self.shape.first_day as usize + day) % 7 == 1;
        // A later slot has its cause in both books: only i was delivered.
        let causes = self.with_cause(self.after);
        for later in 1..self.shape.days - day {
            let slot = self.i + later * n;
            if !causes[slot] {
                continue;
            }
            if self.after.holidays[day + later] == 0 {
                slots[slot].week = later.is_multiple_of(7) && later <= sentence.weeks;
            } else {
                slots[slot].sunday = sunday && later <= sentence.sundays;
            }
        }
    }

    /// The slots of each span.
    fn spans(&self) -> Vec<Range<usize>> {
        let read = |boundary: &usize| self.after.read_versions[*boundary] > 0;
        let read: Vec<usize> = (0..=self.shape.days).filter(read).collect();
        let pairs = read.windows(2);
        pairs
            .map(|pair| rules::span_slots(self.shape, pair[0], pair[1]))
            .collect()
    }
}

/// The slots and the spans whose records differ between two files.
#[derive(Clone, Debug, Default, PartialEq, Eq)]
pub struct Moved {
    pub slots: Vec<usize>,
    pub spans: Vec<usize>,
}

/// What differs, where the trailers' heads and the spans' boundaries don't.
pub fn moved(shape: &Shape, before: &[u8], after: &[u8]) -> Result<Moved, String> {
    if before.len() != after.len() {
        return Err(format!("{} and {} bytes", before.len(), after.len()));
    }
    let split = |file: &[u8]| -> [Vec<u8>; 3] {
        let (tables, trailer) = file.split_at(file.len() - TRAILER_BYTES);
        let (slots, spans) = tables.split_at(SLOT_BYTES * shape.slots);
        [slots.to_vec(), spans.to_vec(), trailer.to_vec()]
    };
    let [slots, spans, trailer] = split(before);
    let [later_slots, later_spans, later_trailer] = split(after);
    // Counts and sum may differ.
    if trailer[..8] != later_trailer[..8] || trailer[28..] != later_trailer[28..] {
        return Err("the trailer's head or distance".to_string());
    }
    let mut records = spans.chunks(SPAN_BYTES).zip(later_spans.chunks(SPAN_BYTES));
    if records.any(|(one, two)| one[..4] != two[..4]) {
        return Err("the boundaries of a span".to_string());
    }
    Ok(Moved {
        slots: differing(&slots, &later_slots, SLOT_BYTES),
        spans: differing(&spans, &later_spans, SPAN_BYTES),
    })
}

fn differing(one: &[u8], two: &[u8], bytes: usize) -> Vec<usize> {
    let records = one.chunks(bytes).zip(two.chunks(bytes));
    let differ = records.enumerate().filter(|(_, (one, two))| one != two);
    differ.map(|(at, _)| at).collect()
}

impl Reach {
    /// The first record that moved and may not.
    pub fn outside(&self, moved: &Moved) -> Option<String> {
        let slot = moved.slots.iter().find(|&&slot| !self.slots[slot].any());
        let span = moved.spans.iter().find(|&&span| !self.spans[span].1);
        let slot = slot.map(|slot| format!("slot {slot}"));
        slot.or_else(|| span.map(|span| format!("span {span}")))
    }
}
