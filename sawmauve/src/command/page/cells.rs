//! What a slot is, and a cell of the grid: a slot, or in a long book the slots of a half hour.

use super::html::{counted, grouped};
use sawmauve::{Method, Quality, Slot};

/// What a slot is, from what was measured to what is missing.
#[derive(Clone, Copy, Debug, PartialEq, Eq, PartialOrd, Ord)]
pub enum Kind {
    Measured,
    Outage,
    Agreed,
    Line,
    OtherDays,
    Missing,
}

use Kind::*;

/// All kinds, in the order in which a page names them.
pub const ALL: [Kind; 6] = [Measured, Outage, Line, OtherDays, Agreed, Missing];

impl Kind {
    pub fn of(slot: &Slot) -> Kind {
        match (slot.quality, slot.method) {
            (Quality::Actual, Method::OutageZero) => Outage,
            (Quality::Actual, _) => Measured,
            (Quality::Agreed, _) => Agreed,
            (Quality::Substituted, Method::Linear | Method::ScaledLinear) => Line,
            (Quality::Substituted, _) => OtherDays,
            (Quality::Missing, _) => Missing,
        }
    }

    /// Its class in the page's style.
    pub fn class(self) -> &'static str {
        match self {
            Measured => "m",
            Outage => "o",
            Agreed => "f",
            Line => "l",
            OtherDays => "d",
            Missing => "n",
        }
    }

    /// The letter that shows it without colour.
    pub fn letter(self) -> &'static str {
        match self {
            Measured => "",
            Outage => "0",
            Agreed => "F",
            Line => "L",
            OtherDays => "D",
            Missing => "N",
        }
    }

    pub fn words(self) -> &'static str {
        match self {
            Measured => "measured",
            Outage => "zeroed by an outage",
            Agreed => "agreed",
            Line => "on a line",
            OtherDays => "from other days",
            Missing => "missing",
        }
    }
}

/// The slot was fitted to the dial.
pub fn is_fitted(slot: &Slot) -> bool {
    slot.method.is_scaled()
}

/// A record in few words.
pub fn short_words(slot: &Slot) -> String {
    let fitted = if is_fitted(slot) { ", fitted" } else { "" };
    let (
        kind,
        Slot {
            quality, method, ..
        },
    ) = (Kind::of(slot).words(), slot);
    format!("{quality}\u{a0}{method}, {kind}{fitted}")
}

/// A record in words.
pub fn record_words(slot: &Slot) -> String {
    let fitted = if is_fitted(slot) {
        ", fitted to the dial"
    } else {
        ""
    };
    let (
        kind,
        Slot {
            quality, method, ..
        },
    ) = (Kind::of(slot).words(), slot);
    format!("{kind}{fitted}: quality {quality}, method {method}")
}

/// The slots of a cell: the first one's number, their records, and these before any span was fitted to the dial.
#[derive(Clone, Copy)]
pub struct Cell<'a> {
    pub first: u32,
    pub slots: &'a [Slot],
    pub before: &'a [Slot],
}

fn sum(slots: &[Slot]) -> u64 {
    slots.iter().map(|slot| u64::from(slot.value)).sum()
}

impl Cell<'_> {
    /// The kind of the slot that is farthest from measured.
    pub fn kind(&self) -> Kind {
        self.slots.iter().map(Kind::of).max().unwrap_or(Missing)
    }

    pub fn value(&self) -> u64 {
        sum(self.slots)
    }

    pub fn has(&self, kind: Kind) -> bool {
        self.slots.iter().any(|slot| Kind::of(slot) == kind)
    }

    /// The sum of its slots of this kind and of those nearer to measured.
    pub fn value_up_to(&self, kind: Kind) -> u64 {
        let slots = self.slots.iter().filter(|slot| Kind::of(slot) <= kind);
        slots.map(|slot| u64::from(slot.value)).sum()
    }

    /// Its value before any span was fitted to the dial, where a slot of it was.
    pub fn value_before(&self) -> Option<u64> {
        self.slots.iter().any(is_fitted).then(|| sum(self.before))
    }

    /// The records in words, those alike together.
    pub fn words(&self) -> String {
        let mut groups: Vec<(String, usize)> = Vec::new();
        for words in self.slots.iter().map(record_words) {
            match groups.iter_mut().find(|(known, _)| *known == words) {
                Some((_, count)) => *count += 1,
                None => groups.push((words, 1)),
            }
        }
        let several = |(words, count): &(String, usize)| match self.slots.len() {
            1 => words.clone(),
            _ => format!("{} {words}", counted(*count, "slot", "slots")),
        };
        groups.iter().map(several).collect::<Vec<_>>().join("; ")
    }

    /// What hovering or focusing it shows: its times and value, then quality and method.
    pub fn label(&self, period: &str) -> String {
        format!("{period}, {} Wh\n{}", grouped(self.value()), self.words())
    }
}
