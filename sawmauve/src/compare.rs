//! Two files laid side by side.

use crate::{Figures, File, Slot, Span, State};
use std::collections::BTreeMap;

/// What both sides have.
#[derive(Clone, Copy, Debug, Default, PartialEq, Eq)]
pub struct Pair<T> {
    /// Of the side that is named first.
    pub ours: T,
    /// Of the other side.
    pub theirs: T,
}

/// An unbroken run of slots that differ.
#[derive(Clone, Debug, PartialEq, Eq)]
pub struct Differing {
    /// The number of its first slot.
    pub first: u32,
    /// The records of both sides, slot by slot.
    pub slots: Vec<Pair<Slot>>,
}

/// A day that has a slot which differs.
#[derive(Clone, Copy, Debug, PartialEq, Eq)]
pub struct DaySums {
    /// The day, counted from 0 in the book.
    pub day: u32,
    /// The sums of its slots in Wh.
    pub sums: Pair<u64>,
}

/// What differs between two files. Where first day, days or interval differ the slots are other times, and no span and no slot is listed.
#[derive(Clone, Debug, PartialEq, Eq)]
pub struct Comparison {
    /// The figures of both, whether they differ or not.
    pub figures: Pair<Figures>,
    /// The spans that differ, those of the same boundaries together.
    pub spans: Vec<Pair<Option<Span>>>,
    /// The slots that differ.
    pub runs: Vec<Differing>,
    /// The days that hold these slots.
    pub days: Vec<DaySums>,
}

/// What a file lacks. Equal files can lack these too.
#[derive(Clone, Copy, Debug, PartialEq, Eq)]
pub struct Lacks {
    /// Missing slots.
    pub missing: u64,
    /// Open spans.
    pub open: usize,
    /// Spans that disagree with their dial.
    pub disagreeing: usize,
}

impl<T> Pair<T> {
    /// The same of both sides.
    pub fn map<U>(&self, of: impl Fn(&T) -> U) -> Pair<U> {
        Pair {
            ours: of(&self.ours),
            theirs: of(&self.theirs),
        }
    }
}

impl<T: PartialEq> Pair<T> {
    /// Both sides have the same.
    pub fn is_equal(&self) -> bool {
        self.ours == self.theirs
    }

    /// Itself, where the sides differ.
    pub fn differing(self) -> Option<Pair<T>> {
        (!self.is_equal()).then_some(self)
    }
}

impl Pair<u64> {
    /// Ours minus theirs.
    pub fn difference(&self) -> i128 {
        i128::from(self.ours) - i128::from(self.theirs)
    }
}

impl Differing {
    /// The slot after its last one.
    pub fn until(&self) -> u32 {
        // A file has at most 115,200 slots.
        let count = u32::try_from(self.slots.len()).unwrap_or(u32::MAX);
        self.first.saturating_add(count)
    }

    /// Its sums in Wh.
    pub fn sums(&self) -> Pair<u64> {
        let sum = |of: fn(&Pair<Slot>) -> Slot| {
            self.slots
                .iter()
                .map(|pair| u64::from(of(pair).value))
                .sum()
        };
        Pair {
            ours: sum(|pair| pair.ours),
            theirs: sum(|pair| pair.theirs),
        }
    }
}

impl Comparison {
    /// One figure of both, where it differs.
    pub fn figure<T: PartialEq>(&self, of: impl Fn(&Figures) -> T) -> Option<Pair<T>> {
        self.figures.map(of).differing()
    }

    /// First day, days and interval are the same.
    pub fn is_of_same_times(&self) -> bool {
        let times = |figures: &Figures| (figures.first, figures.days, figures.interval);
        self.figures.map(times).is_equal()
    }

    /// Nothing is listed.
    pub fn is_empty(&self) -> bool {
        let same_layout = self.figures.map(|figures| figures.layout).is_equal();
        self.is_of_same_times() && same_layout && self.spans.is_empty() && self.runs.is_empty()
    }

    /// The sums of both files in Wh.
    pub fn sums(&self) -> Pair<u64> {
        self.figures.map(|figures| figures.sum)
    }
}

impl Lacks {
    /// Of a file.
    pub fn of(file: &File) -> Lacks {
        let in_state = |state| {
            file.spans()
                .iter()
                .filter(|span| span.state == state)
                .count()
        };
        Lacks {
            missing: file.figures().none,
            open: in_state(State::Open),
            disagreeing: in_state(State::Disagrees),
        }
    }

    /// Nothing is missing, open or disagreeing.
    pub fn is_complete(&self) -> bool {
        (self.missing, self.open, self.disagreeing) == (0, 0, 0)
    }
}

fn spans(files: Pair<&File>) -> Vec<Pair<Option<Span>>> {
    let mut by_ends: BTreeMap<(u32, u32), Pair<Option<Span>>> = BTreeMap::new();
    for span in files.ours.spans() {
        by_ends.entry((span.first, span.last)).or_default().ours = Some(*span);
    }
    for span in files.theirs.spans() {
        by_ends.entry((span.first, span.last)).or_default().theirs = Some(*span);
    }
    by_ends.into_values().filter_map(Pair::differing).collect()
}

fn runs(slots: Pair<&[Slot]>) -> Vec<Differing> {
    let mut runs: Vec<Differing> = Vec::new();
    for (at, (ours, theirs)) in (0..).zip(slots.ours.iter().zip(slots.theirs)) {
        let pair = Pair {
            ours: *ours,
            theirs: *theirs,
        };
        match (pair.is_equal(), runs.last_mut()) {
            (true, _) => {}
            (false, Some(run)) if run.until() == at => run.slots.push(pair),
            (false, _) => runs.push(Differing {
                first: at,
                slots: vec![pair],
            }),
        }
    }
    runs
}

fn days(slots: Pair<&[Slot]>, in_day: usize) -> Vec<DaySums> {
    let in_day = in_day.max(1);
    let days = slots.ours.chunks(in_day).zip(slots.theirs.chunks(in_day));
    let sum = |slots: &[Slot]| slots.iter().map(|slot| u64::from(slot.value)).sum();
    (0..)
        .zip(days)
        .filter(|(_, (ours, theirs))| ours != theirs)
        .map(|(day, (ours, theirs))| DaySums {
            day,
            sums: Pair {
                ours: sum(ours),
                theirs: sum(theirs),
            },
        })
        .collect()
}

/// What differs between two files. Nothing is listed exactly where their bytes are equal: what the reader accepts is the writing of what
/// it gives (`Canonical`).
pub fn compare(ours: &File, theirs: &File) -> Comparison {
    let files = Pair { ours, theirs };
    let mut found = Comparison {
        figures: files.map(|file| *file.figures()),
        spans: Vec::new(),
        runs: Vec::new(),
        days: Vec::new(),
    };
    if found.is_of_same_times() {
        let slots = Pair {
            ours: ours.slots(),
            theirs: theirs.slots(),
        };
        found.spans = spans(files);
        found.runs = runs(slots);
        found.days = days(slots, ours.figures().slots_per_day() as usize);
    }
    found
}
