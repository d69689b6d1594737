//! How one slot came to its outcome: the 34 fields of "Follow one figure".

use std::ops::Range;

use crate::second::file;
use crate::second::head::{Head, Shape};
use crate::second::lists::Lists;
use crate::second::refusal;
use crate::second::rules::{self, Cause, Cells, Filled, Quality, Slot, Span, State};

/// How many fields there are.
pub const FIELDS: usize = 34;

// Where each group of fields begins, and the fields that are asked for by themselves.
pub const CAUSE: usize = 0;
pub const RULE: usize = 1;
/// Value, quality and method before scaling.
pub const FILLED: usize = 2;
pub const FILLED_METHOD: usize = FILLED + 2;
/// l, r, j, g.
pub const LINE: usize = 5;
pub const LEFT: usize = LINE;
pub const RIGHT: usize = LINE + 1;
pub const PLACE: usize = LINE + 2;
pub const LENGTH: usize = LINE + 3;
/// The number of references, then four days and four values.
pub const NUMBER: usize = 9;
pub const DAYS: usize = 10;
pub const VALUES: usize = 14;
/// 1, first and last boundary, lowest and highest advance, R, V, state.
pub const SPAN: usize = 18;
pub const FIRST: usize = SPAN + 1;
pub const LAST: usize = SPAN + 2;
pub const LOWEST: usize = SPAN + 3;
pub const HIGHEST: usize = SPAN + 4;
pub const R: usize = SPAN + 5;
pub const V: usize = SPAN + 6;
pub const STATE: usize = SPAN + 7;
/// 1, T, E, P, C.
pub const SCALED: usize = 26;
pub const T: usize = SCALED + 1;
pub const E: usize = SCALED + 2;
pub const P: usize = SCALED + 3;
pub const C: usize = SCALED + 4;
/// Value, quality and method as published.
pub const OUTCOME: usize = 31;
pub const QUALITY: usize = OUTCOME + 1;
pub const METHOD: usize = OUTCOME + 2;

pub type Fields = [u64; FIELDS];

/// The fields of one slot, or the refusal.
pub fn explain(head: Head, lists: &Lists, slot: u32) -> Result<Fields, u8> {
    let shape = head.shape()?;
    let slot = slot as usize;
    // Publishing into no room is refused 2, 11 or, where nothing is wrong, 7.
    match lists.publish(head, &mut []) {
        Err(refusal::LENGTH) => return Err(refusal::LENGTH),
        _ if slot >= shape.slots => return Err(refusal::PLACE),
        Err(refusal::CELL) => return Err(refusal::CELL),
        _ => {}
    }
    let cells = lists.cells();
    let causes = rules::causes(&shape, &cells);
    let filled = rules::fill(&shape, &cells, &causes);
    let (slots, spans) = rules::outcomes(&shape, &cells);
    let way = Way {
        shape,
        cells,
        causes,
        filled,
        slot,
    };
    let mut fields = [0; FIELDS];
    way.filling(&mut fields);
    way.fitting(&spans, &mut fields);
    fields[OUTCOME..FIELDS].copy_from_slice(&record(&slots[slot]));
    Ok(fields)
}

/// As the other build's call answers: 0 or the refusal; any number of fields but 34 is 2.
pub fn explain_code(head: Head, lists: &Lists, slot: u32, fields: &mut [u64]) -> u32 {
    if fields.len() != FIELDS && head.shape().is_ok() {
        return refusal::LENGTH.into();
    }
    match explain(head, lists, slot) {
        Ok(written) => {
            fields.copy_from_slice(&written);
            0
        }
        Err(number) => number.into(),
    }
}

/// What the way of one slot is read from.
struct Way<'a> {
    shape: Shape,
    cells: Cells<'a>,
    causes: Vec<Option<Cause>>,
    /// Every slot before the step of the spans.
    filled: Filled,
    slot: usize,
}

impl Way<'_> {
    /// Places 0 to 17: the cause, the rule and what the rule went by.
    fn filling(&self, fields: &mut Fields) {
        let filled = &self.filled.slots[self.slot];
        fields[CAUSE] = cause_number(self.causes[self.slot]);
        fields[RULE] = rule_number(filled);
        fields[FILLED..LINE].copy_from_slice(&record(filled));
        match fields[RULE] {
            2 => fields[LINE..NUMBER].copy_from_slice(&self.line()),
            3 => self.same_day(fields),
            _ => {}
        }
    }

    /// W2: l, r, j and g of the run that the slot lies in.
    fn line(&self) -> [u64; 4] {
        // A slot with a cause, not agreed and not zeroed, is filled as S or N.
        let in_a_run = |slot: usize| {
            let quality = self.filled.slots[slot].quality;
            matches!(quality, Quality::Substituted | Quality::None)
        };
        let mut before = self.slot;
        while in_a_run(before) {
            before -= 1;
        }
        let mut after = self.slot;
        while in_a_run(after) {
            after += 1;
        }
        let value = |slot: usize| u64::from(self.cells.values[slot]);
        let j = (self.slot - before) as u64;
        let g = (after - before - 1) as u64;
        [value(before), value(after), j, g]
    }

    /// 01, Filling, 3, and W3: up to four references, nearest day first.
    fn same_day(&self, fields: &mut Fields) {
        let all = rules::reference_slots(&self.shape, &self.cells, &self.causes, self.slot);
        for (place, earlier) in all.take(4).enumerate() {
            fields[NUMBER] += 1;
            fields[DAYS + place] = (earlier / self.shape.slots_a_day) as u64;
            fields[VALUES + place] = self.cells.values[earlier].into();
        }
    }

    /// Places 18 to 30: the slot's span, and its share where it is scaled.
    fn fitting(&self, spans: &[Span], fields: &mut Fields) {
        let day = self.slot / self.shape.slots_a_day;
        let Some(span) = spans
            .iter()
            .find(|span| (span.first..span.last).contains(&day))
        else {
            return;
        };
        let range = rules::span_slots(&self.shape, span.first, span.last);
        let v = rules::settled_sum(&self.filled.slots[range.clone()]);
        let r = u64::from(span.advances.fitted(v));
        fields[SPAN..SCALED].copy_from_slice(&[
            1,
            span.first as u64,
            span.last as u64,
            span.advances.lowest.into(),
            span.advances.highest.into(),
            r,
            v,
            file::state_number(span.state).into(),
        ]);
        if span.state == State::Scaled && self.substituted(self.slot) {
            let [e, p, c] = self.sums(range);
            fields[SCALED..OUTCOME].copy_from_slice(&[1, r - v, e, p, c]);
        }
    }

    fn substituted(&self, slot: usize) -> bool {
        self.filled.slots[slot].quality == Quality::Substituted
    }

    /// E, P and C by W7's shapes of the span's S slots; if all are 0, each counts as 1.
    fn sums(&self, range: Range<usize>) -> [u64; 3] {
        let mut shapes: Vec<(usize, u64)> = range
            .filter(|&slot| self.substituted(slot))
            .map(|slot| (slot, self.filled.e[slot]))
            .collect();
        if shapes.iter().all(|&(_, e)| e == 0) {
            shapes.iter_mut().for_each(|(_, e)| *e = 1);
        }
        let sum = |counts: &dyn Fn(usize) -> bool| {
            let counted = shapes.iter().filter(|&&(slot, _)| counts(slot));
            counted.map(|&(_, e)| e).sum()
        };
        [
            sum(&|_| true),
            sum(&|slot| slot < self.slot),
            sum(&|slot| slot <= self.slot),
        ]
    }
}

/// Value, quality letter and method.
fn record(slot: &Slot) -> [u64; 3] {
    [
        slot.value.into(),
        file::letter(slot.quality).into(),
        slot.method.into(),
    ]
}

/// The causes in 01's order, 0 for none.
fn cause_number(cause: Option<Cause>) -> u64 {
    match cause {
        None => 0,
        Some(Cause::Gap) => 1,
        Some(Cause::TimeChange) => 2,
        Some(Cause::Partial) => 3,
        Some(Cause::Demand) => 4,
    }
}

/// 01's numbers of the rules, 0 for a good slot and 5 for W1's; of a slot before scaling.
fn rule_number(filled: &Slot) -> u64 {
    match filled.quality {
        Quality::None => 4,
        Quality::Actual | Quality::Substituted | Quality::Agreed => filled.method.into(),
    }
}
