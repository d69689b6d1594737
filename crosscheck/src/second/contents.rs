//! W10: what an accepted file of any layout gives, and its writing.

use crate::number::narrowed;
use crate::second::file::{self, Frame};
use crate::second::reader::{self, SlotRecord, SpanRecord};
use crate::second::rules::{self, Advances, Quality, Slot, Span, State};

/// The outcomes that a file holds; in layouts 1 and 2 each span has one advance.
#[derive(Clone, Debug, PartialEq, Eq)]
pub struct Contents {
    pub frame: Frame,
    pub slots: Vec<Slot>,
    pub spans: Vec<Span>,
}

impl Contents {
    /// Of an accepted file, or the refusal.
    pub fn of(file: &[u8]) -> Result<Contents, u8> {
        let (figures, slots, spans) = reader::records(file)?;
        let frame = Frame {
            first_day: narrowed(figures.first_day),
            days: narrowed(figures.days),
            interval: narrowed(figures.interval),
            layout: narrowed(figures.layout),
        };
        Ok(Contents {
            frame,
            slots: slots.iter().map(slot).collect(),
            spans: spans.iter().map(span).collect(),
        })
    }

    /// The writing, in its own layout.
    pub fn file(&self) -> Vec<u8> {
        let length = file::length(self.frame.layout, self.slots.len(), self.spans.len());
        let mut out = vec![0; length];
        file::write(&self.frame, &self.slots, &self.spans, &mut out);
        out
    }

    /// The slots of a span.
    pub fn slots_of(&self, span: &Span) -> &[Slot] {
        let slots_a_day = 1440 / self.frame.interval as usize;
        &self.slots[span.first * slots_a_day..span.last * slots_a_day]
    }

    /// Each span's advances, and the sum of all its values.
    pub fn sums(&self) -> Vec<(Advances, u64)> {
        let sum = |slots: &[Slot]| slots.iter().map(|slot| u64::from(slot.value)).sum();
        let spans = self.spans.iter();
        spans
            .map(|span| (span.advances, sum(self.slots_of(span))))
            .collect()
    }

    /// The same in the layout it would have had before W10: R in place of the range.
    pub fn before(&self) -> Contents {
        let one = |span: &Span| Span {
            advances: Advances::one(
                span.advances
                    .fitted(rules::settled_sum(self.slots_of(span))),
            ),
            ..*span
        };
        Contents {
            frame: Frame {
                layout: file::layout_before(&self.slots),
                ..self.frame
            },
            slots: self.slots.clone(),
            spans: self.spans.iter().map(one).collect(),
        }
    }
}

fn slot(record: &SlotRecord) -> Slot {
    Slot {
        value: narrowed(record.value),
        quality: match record.letter {
            b'A' => Quality::Actual,
            b'S' => Quality::Substituted,
            b'F' => Quality::Agreed,
            _ => Quality::None,
        },
        method: record.method,
    }
}

fn span(record: &SpanRecord) -> Span {
    Span {
        first: narrowed(record.first),
        last: narrowed(record.last),
        advances: Advances {
            lowest: narrowed(record.lowest),
            highest: narrowed(record.highest),
        },
        state: match record.state {
            0 => State::Agrees,
            1 => State::Scaled,
            2 => State::Open,
            _ => State::Disagrees,
        },
    }
}

/// An accepted file in the layout it would have had before W10.
pub fn before(file: &[u8]) -> Result<Vec<u8>, u8> {
    Ok(Contents::of(file)?.before().file())
}
