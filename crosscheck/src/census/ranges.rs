//! Which classes the widths of register reads and the ranges of spans fall in: W10.

use crate::census::counts::Counts;
use crate::compare::calls::{Act, Call};
use crate::compare::side::{Answer, Second, apply};
use crate::second::book::{Filed, MOST_WIDTH};
use crate::second::head::{DIAL, Shape};
use crate::second::lists::{List, Lists, RegisterRead};
use crate::second::rules::{self, Cells, Quality, Slot, Span, State};

pub const RANGES: &str = "range";
pub const RANGE_NAMES: &[&str] = &[
    "one advance",
    "width at the earlier read only",
    "width at the later read only",
    "widths at both",
    "width of 9,999",
    "G - u below 0",
    "G - u of 0",
    "G + v of 99,999,999",
    "G + v of 100,000,000",
    "G + v over 100,000,000",
    "both ends of the dial, G - u over 0",
];

pub const PLACES: &str = "V and the range";
pub const PLACE_NAMES: &[&str] = &[
    "below, state 0",
    "below, state 1",
    "below, state 2",
    "below, state 3",
    "at the lowest, state 0",
    "at the lowest, state 1",
    "inside, state 0",
    "inside, state 1",
    "inside, state 2",
    "at the highest, state 0",
    "at the highest, state 1",
    "above, state 0",
    "above, state 2",
    "above, state 3",
    "above by 1, S and state 3",
];

pub const EDGES: &str = "tolerance and the range";
pub const EDGE_NAMES: &[&str] = &[
    "state 0, lowest = V + t",
    "state 3, lowest = V + t + 1",
    "state 0, highest = V - t",
    "state 3, highest = V - t - 1",
    "t 0, state 3, lowest = V + 1",
    "t 0, state 3, highest = V - 1",
    "wrapped, state 0",
    "wrapped, state 1",
    "wrapped, state 3",
];

pub const READS: &str = "width of a read";
pub const READ_NAMES: &[&str] = &[
    "stored, 0",
    "stored, 1 to 9,998",
    "stored, 9,999",
    "late, another width",
    "repeat, width over 0",
    "conflict, width alone",
    "conflict, reading alone",
    "refused 17, 10,000",
    "refused 17, to 65,535",
    "refused 17, 65,536",
    "refused 17, another",
    "17 before 11",
    "register refused 11, over 9,999",
    "register refused 11, beside version 0",
    "publish refused 11, over 9,999",
    "publish refused 11, beside version 0",
    "11 before 10, by the width",
    "open refused 2, widths",
    "register refused 2, widths",
    "publish refused 2, widths",
];

/// Counts every span of a published book; `filled` are the slots before their step.
pub fn ranges(
    shape: &Shape,
    cells: &Cells,
    (filled, spans): (&[Slot], &[Span]),
    counts: &mut Counts,
) {
    for span in spans {
        let (u, v) = (cells.widths[span.first], cells.widths[span.last]);
        let g = rules::advance(cells.readings[span.first], cells.readings[span.last]);
        range(g, u.into(), v.into(), counts);
        let slots = &filled[rules::span_slots(shape, span.first, span.last)];
        // One advance is counted with R of the books before W10.
        if span.advances.lowest < span.advances.highest {
            place(span, slots, counts);
            edges(shape, span, slots, g + u32::from(v) >= DIAL, counts);
        }
    }
}

fn range(g: u32, u: u32, v: u32, counts: &mut Counts) {
    let most = u32::from(MOST_WIDTH);
    let wrapped = g + v >= DIAL;
    let occurred = [
        (u == 0 && v == 0, "one advance"),
        (u > 0 && v == 0, "width at the earlier read only"),
        (u == 0 && v > 0, "width at the later read only"),
        (u > 0 && v > 0, "widths at both"),
        (u == most || v == most, "width of 9,999"),
        (!wrapped && g < u, "G - u below 0"),
        (!wrapped && u > 0 && g == u, "G - u of 0"),
        (v > 0 && g + v == DIAL - 1, "G + v of 99,999,999"),
        (g + v == DIAL, "G + v of 100,000,000"),
        (g + v > DIAL, "G + v over 100,000,000"),
        (wrapped && g > u, "both ends of the dial, G - u over 0"),
    ];
    for (occurred, name) in occurred {
        counts.add_if(occurred, RANGES, name);
    }
}

/// Where V lies, in a range of more than one advance.
fn place(span: &Span, slots: &[Slot], counts: &mut Counts) {
    let v = rules::settled_sum(slots);
    let (lowest, highest) = (
        u64::from(span.advances.lowest),
        u64::from(span.advances.highest),
    );
    let first = if v < lowest {
        [Some(0), Some(1), Some(2), Some(3)]
    } else if v == lowest {
        [Some(4), Some(5), None, None]
    } else if v < highest {
        [Some(6), Some(7), Some(8), None]
    } else if v == highest {
        [Some(9), Some(10), None, None]
    } else {
        [Some(11), None, Some(12), Some(13)]
    };
    if let Some(at) = first[state(span)] {
        counts.add(PLACES, PLACE_NAMES[at]);
    }
    let substituted = slots
        .iter()
        .any(|slot| slot.quality == Quality::Substituted);
    let missed = v == highest + 1 && substituted && span.state == State::Disagrees;
    counts.add_if(missed, PLACES, "above by 1, S and state 3");
}

fn state(span: &Span) -> usize {
    crate::second::file::state_number(span.state).into()
}

/// How the tolerance meets an end of the range, in spans of A and F alone.
fn edges(shape: &Shape, span: &Span, slots: &[Slot], wrapped: bool, counts: &mut Counts) {
    let estimated = |slot: &Slot| matches!(slot.quality, Quality::Substituted | Quality::None);
    let number = state(span);
    let mut add = |occurred, name| counts.add_if(occurred, EDGES, name);
    add(wrapped && number == 0, "wrapped, state 0");
    add(wrapped && number == 1, "wrapped, state 1");
    add(wrapped && number == 3, "wrapped, state 3");
    if slots.iter().any(estimated) {
        return;
    }
    let (lowest, highest) = (
        u64::from(span.advances.lowest),
        u64::from(span.advances.highest),
    );
    let (t, v) = (u64::from(shape.tolerance), rules::settled_sum(slots));
    let (agrees, exact) = (number == 0, t == 0);
    let (met, missed) = (lowest == v + t, lowest == v + t + 1);
    add(agrees && !exact && met, "state 0, lowest = V + t");
    add(!agrees && !exact && missed, "state 3, lowest = V + t + 1");
    add(!agrees && exact && missed, "t 0, state 3, lowest = V + 1");
    let (met, missed) = (highest + t == v, highest + t + 1 == v);
    add(agrees && !exact && met, "state 0, highest = V - t");
    add(!agrees && !exact && missed, "state 3, highest = V - t - 1");
    add(!agrees && exact && missed, "t 0, state 3, highest = V - 1");
}

/// A call that is lent the widths, its answer and the lists behind it. Only a stored read
/// changed them, and that one goes by its width alone.
pub fn answered(call: &Call, lists: &Lists, answer: Answer, counts: &mut Counts) {
    if answer == Answer::Refused(11) && possible_without_widths(call, lists) {
        impossible(call, lists, counts);
    }
    if let (Some((List::Widths, _)), Answer::Refused(2)) = (call.resized, answer) {
        counts.add(READS, wrong_length(call));
    }
    match answer {
        Answer::Refused(17) => refused(call, lists, counts),
        _ => content(call, lists, answer, counts),
    }
}

fn wrong_length(call: &Call) -> &'static str {
    match call.act {
        Act::Open => "open refused 2, widths",
        Act::Register(_) => "register refused 2, widths",
        _ => "publish refused 2, widths",
    }
}

/// A read beside the content of its cell.
fn content(call: &Call, lists: &Lists, answer: Answer, counts: &mut Counts) {
    let Act::Register(read) = call.act else {
        return;
    };
    let (at, width) = (read.boundary as usize, read.width);
    let (Some(&kept), Some(&kept_width)) = (lists.readings.get(at), lists.widths.get(at)) else {
        return;
    };
    let (same, same_width) = (kept == read.reading, u32::from(kept_width) == width);
    let name = match answer {
        Answer::Filed(Filed::Stored) => match width {
            0 => "stored, 0",
            9_999 => "stored, 9,999",
            _ => "stored, 1 to 9,998",
        },
        Answer::Filed(Filed::Late) if !same_width => "late, another width",
        Answer::Filed(Filed::Repeat) if width > 0 => "repeat, width over 0",
        Answer::Refused(10) if same && !same_width => "conflict, width alone",
        Answer::Refused(10) if !same && same_width => "conflict, reading alone",
        _ => return,
    };
    counts.add(READS, name);
}

/// A width over 9,999.
fn refused(call: &Call, lists: &Lists, counts: &mut Counts) {
    let Act::Register(RegisterRead { width, .. }) = call.act else {
        return;
    };
    let name = match width {
        10_000 => "refused 17, 10,000",
        10_001..=65_535 => "refused 17, to 65,535",
        65_536 => "refused 17, 65,536",
        _ => "refused 17, another",
    };
    counts.add(READS, name);
    let eleven = apply(&Second, &narrow(call), &mut lists.clone(), &mut []);
    counts.add_if(eleven == Some(Answer::Refused(11)), READS, "17 before 11");
}

/// The same read without a width.
fn narrow(call: &Call) -> Call {
    let mut narrow = *call;
    if let Act::Register(read) = &mut narrow.act {
        read.width = 0;
    }
    narrow
}

fn possible_without_widths(call: &Call, lists: &Lists) -> bool {
    let mut narrow = lists.clone();
    narrow.widths.fill(0);
    apply(&Second, call, &mut narrow, &mut []) != Some(Answer::Refused(11))
}

/// Why the widths, and no other cell, gave 11.
fn impossible(call: &Call, lists: &Lists, counts: &mut Counts) {
    let (cells, names) = match call.act {
        Act::Register(RegisterRead { boundary, .. }) => (
            boundary as usize..boundary as usize + 1,
            [
                "register refused 11, over 9,999",
                "register refused 11, beside version 0",
            ],
        ),
        Act::Publish { .. } => (
            0..lists.widths.len(),
            [
                "publish refused 11, over 9,999",
                "publish refused 11, beside version 0",
            ],
        ),
        _ => return,
    };
    let over = cells.clone().any(|i| lists.widths[i] > MOST_WIDTH);
    let beside = cells
        .clone()
        .any(|i| lists.widths[i] != 0 && lists.read_versions[i] == 0);
    counts.add_if(over, READS, names[0]);
    counts.add_if(beside, READS, names[1]);
    if let Act::Register(read) = call.act {
        // Another content than the cell's whatever the width, so 10 would apply too.
        let ten = read.version == lists.read_versions[cells.start]
            && read.reading != lists.readings[cells.start];
        counts.add_if(ten, READS, "11 before 10, by the width");
    }
}
