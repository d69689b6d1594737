//! 02, W12: a berth on paper.

use crate::number::narrowed;
use crate::second::contents::Contents;
use crate::second::file;
use crate::second::head::{DIAL, Head, Shape};
use crate::second::lists::Lists;
use crate::second::lists::{Delivery, RegisterRead};
use crate::second::refusal;

/// The highest loss rate, of 1000.
pub const MOST_LOSS: u32 = 1000;

/// What a run reports.
#[derive(Clone, Copy, Debug, PartialEq, Eq)]
pub struct Report {
    /// The state of the span from boundary 0 to D, as the file has it.
    pub state: u8,
    /// The published total minus the true total.
    pub difference: i64,
}

/// The next draw of a generator that holds `x`; it holds the draw then.
pub fn draw(x: u32) -> u32 {
    let x = x ^ x << 13;
    let x = x ^ x >> 17;
    x ^ x << 5
}

/// What a berth carries from slot to slot.
#[derive(Clone, Copy, Debug, PartialEq, Eq)]
struct Berth {
    /// The last draw, the seed at first.
    x: u32,
    /// The true total in Wh.
    total: u64,
}

impl Berth {
    /// One slot: the next state, and the value that is sent, if any.
    fn step(self, shape: &Shape, loss: u32) -> (Berth, Option<u32>) {
        let first = draw(self.x);
        let second = draw(first);
        // limit × L is at most 30,000,000.
        let value = second % (shape.limit * shape.interval / 60 + 1);
        let next = Berth {
            x: second,
            total: self.total + u64::from(value),
        };
        (next, (first % 1000 >= loss).then_some(value))
    }
}

/// Fills the lists and the first bytes of `out` by a run from a seed.
pub fn simulate(
    head: Head,
    seed: u32,
    loss: u32,
    lists: &mut Lists,
    out: &mut [u8],
) -> Result<Report, u8> {
    // The lists are changed only when nothing can be refused any more.
    let mut run = lists.clone();
    run.open(head)?;
    let shape = head.shape()?;
    if out.len() < file::length(file::LAYOUT, shape.slots, 1) {
        return Err(refusal::BUFFER);
    }
    if seed == 0 {
        return Err(refusal::SEED);
    }
    if loss > MOST_LOSS {
        return Err(refusal::LOSS);
    }
    let total = fill(head, &shape, seed, loss, &mut run);
    *lists = run;
    Ok(published(head, lists, total, out))
}

/// A step for each slot and the two register reads; the true total.
fn fill(head: Head, shape: &Shape, seed: u32, loss: u32, lists: &mut Lists) -> u64 {
    let mut berth = Berth { x: seed, total: 0 };
    for slot in 0..narrowed(shape.slots) {
        let (next, sent) = berth.step(shape, loss);
        berth = next;
        if let Some(value) = sent {
            let delivery = Delivery {
                slot,
                version: 1,
                value,
                status: 0,
            };
            lists.deliver(head, delivery).expect("a slot in bounds");
        }
    }
    let last = narrowed(berth.total % u64::from(DIAL));
    for (boundary, reading) in [(0, 0), (narrowed(shape.days), last)] {
        let read = RegisterRead {
            boundary,
            version: 1,
            reading,
            width: 0,
        };
        lists.register(head, read).expect("a boundary in bounds");
    }
    berth.total
}

fn published(head: Head, lists: &Lists, total: u64, out: &mut [u8]) -> Report {
    let length = lists
        .publish(head, out)
        .expect("lists filled by calls and a buffer that is long enough");
    let file = Contents::of(&out[..length]).expect("a published file");
    let sum: u64 = file.slots.iter().map(|slot| u64::from(slot.value)).sum();
    Report {
        state: file::state_number(file.spans[0].state),
        difference: sum as i64 - total as i64,
    }
}

/// As the other build's call answers: 0 or the refusal; a report is two numbers.
pub fn simulate_code(
    head: Head,
    seed: u32,
    loss: u32,
    lists: &mut Lists,
    out: &mut [u8],
    report: &mut [i64],
) -> u32 {
    if report.len() != 2 && head.shape().is_ok() {
        return refusal::LENGTH.into();
    }
    match simulate(head, seed, loss, lists, out) {
        Ok(run) => {
            report.copy_from_slice(&[run.state.into(), run.difference]);
            0
        }
        Err(number) => number.into(),
    }
}
