//! A log by the plain book: which calls it accepted and refused, what stands in its cells, and the
//! second build's file of it.

use std::collections::{BTreeMap, BTreeSet};

use sawmauve::Call;

use crate::compare::plain::Plain;
use crate::second::book::Filed;
use crate::second::contents::Contents;
use crate::second::head::Head;
use crate::second::lists::Lists;
use crate::second::log::{self, Filling, Log};
use crate::tries::reconcile::offices::line;

/// What a log has of one call: the lines that were accepted, and those that were refused, from 1.
#[derive(Default)]
struct Lines {
    accepted: Vec<u64>,
    refused: Vec<(u64, u8)>,
}

/// A log that was played.
pub struct Played {
    pub text: Vec<u8>,
    log: Log,
    plain: Plain,
    calls: BTreeMap<Filling, Lines>,
    pub file: Vec<u8>,
    contents: Contents,
}

/// A call that one log accepted and the other did not: its lines, its cell's version, and the other
/// log's first refusal of it with its line, and whether it has the highest version there.
#[derive(Clone, Debug, PartialEq, Eq)]
pub struct Listed {
    pub call: Filling,
    pub lines: Vec<u64>,
    pub cell: Option<u32>,
    pub refused: Option<(u64, u8, bool)>,
}

/// A call's version; a holiday has none.
pub fn version(call: Filling) -> Option<u32> {
    match call {
        Filling::Delivery([_, version, ..])
        | Filling::Agreed([_, version, _])
        | Filling::Register([_, version, ..]) => Some(version),
        Filling::Holiday(_) => None,
    }
}

fn filling(call: Call) -> Option<Filling> {
    match call {
        Call::Delivery {
            slot,
            version,
            value,
            status,
        } => Some(Filling::Delivery([slot, version, value, status])),
        Call::Agreed {
            slot,
            version,
            value,
        } => Some(Filling::Agreed([slot, version, value])),
        Call::Holiday { day } => Some(Filling::Holiday(day)),
        Call::Register {
            boundary,
            version,
            reading,
            width,
        } => Some(Filling::Register([boundary, version, reading, width])),
        Call::Nothing | Call::Limits | Call::Opening { .. } => None,
    }
}

/// What the package gives, in the same terms.
pub fn given(listed: &[sawmauve::Listed]) -> Vec<Listed> {
    let one = |listed: &sawmauve::Listed| {
        let refused = listed
            .refused
            .map(|other| (other.line, other.refusal.number(), other.highest));
        Some(Listed {
            call: filling(listed.call)?,
            lines: listed.lines.clone(),
            cell: listed.cell,
            refused,
        })
    };
    listed.iter().filter_map(one).collect()
}

fn fed(plain: &mut Plain, head: Head, call: Filling) -> Result<Filed, u8> {
    match call {
        Filling::Delivery(numbers) => plain.deliver(head, numbers.into()),
        Filling::Agreed(numbers) => plain.agree(head, numbers.into()),
        Filling::Holiday(day) => plain.holiday(head, day),
        Filling::Register(numbers) => plain.register(head, numbers.into()),
    }
}

/// The second build's file of a log.
fn published(text: &[u8], log: &Log) -> Result<Vec<u8>, u8> {
    let shape = log.head.shape()?;
    let mut lists = Lists::zeroed(shape.slots, shape.days);
    let mut answers = vec![0; log.lines];
    log::play_code(text, &mut lists, &mut answers);
    let mut file = vec![0; 6 * shape.slots + 14 * shape.days + 32];
    let length = lists.publish(log.head, &mut file)?;
    file.truncate(length);
    Ok(file)
}

impl Played {
    pub fn of(text: &[u8]) -> Result<Played, String> {
        let refused = |number: u8| format!("the second build refuses {number}");
        let log = log::read(text).map_err(|fault| refused(fault.answer))?;
        let mut plain = Plain::default();
        let mut calls: BTreeMap<Filling, Lines> = BTreeMap::new();
        for &(at, call) in &log.calls {
            let (lines, number) = (calls.entry(call).or_default(), at as u64 + 1);
            match fed(&mut plain, log.head, call) {
                Ok(_) => lines.accepted.push(number),
                Err(answer) => lines.refused.push((number, answer)),
            }
        }
        let file = published(text, &log).map_err(refused)?;
        Ok(Played {
            text: text.to_vec(),
            contents: Contents::of(&file).map_err(refused)?,
            log,
            plain,
            calls,
            file,
        })
    }

    pub fn head(&self) -> Head {
        self.log.head
    }

    /// The accepted calls.
    pub fn accepted(&self) -> BTreeSet<Filling> {
        let calls = self.calls.iter();
        let accepted = calls.filter(|(_, lines)| !lines.accepted.is_empty());
        accepted.map(|(&call, _)| call).collect()
    }

    /// The first line that refused a call, and its answer.
    pub fn refused(&self, call: Filling) -> Option<(u64, u8)> {
        self.calls.get(&call)?.refused.first().copied()
    }

    /// The version of the cell that a call names.
    fn cell(&self, call: Filling) -> Option<u32> {
        match call {
            Filling::Delivery([slot, ..]) => Some(self.plain.slot(slot).1),
            Filling::Agreed([slot, ..]) => Some(self.plain.agreed(slot).1),
            Filling::Register([boundary, ..]) => Some(self.plain.boundary(boundary).1),
            Filling::Holiday(_) => None,
        }
    }

    /// The calls that it accepted and the other did not, by their first lines.
    pub fn alone(&self, other: &Played) -> Vec<Listed> {
        let (ours, theirs) = (self.accepted(), other.accepted());
        let mut alone: Vec<Listed> = ours
            .difference(&theirs)
            .map(|&call| Listed {
                call,
                lines: self.calls[&call].accepted.clone(),
                cell: self.cell(call),
                refused: other
                    .refused(call)
                    .map(|(line, answer)| (line, answer, other.cell(call) == version(call))),
            })
            .collect();
        alone.sort_by_key(|listed| listed.lines[0]);
        alone
    }

    /// An accepted call names the cell with the same version and other content.
    pub fn has_other_content(&self, call: Filling) -> bool {
        let cell = |call: Filling| match call {
            Filling::Delivery([slot, version, ..]) => (0, slot, version),
            Filling::Agreed([slot, version, _]) => (1, slot, version),
            Filling::Register([boundary, version, ..]) => (2, boundary, version),
            Filling::Holiday(day) => (3, day, 0),
        };
        let accepted = self.accepted();
        let mut others = accepted.iter().filter(|&&other| other != call);
        others.any(|&other| cell(other) == cell(call))
    }

    /// The log without any line of a call.
    pub fn without(&self, call: Filling) -> Vec<u8> {
        let lines = self.text.split_inclusive(|&byte| byte == b'\n');
        let numbered = (1..).zip(lines);
        let gone = &self.calls[&call];
        let refused = gone.refused.iter().map(|(line, _)| line);
        let gone: BTreeSet<&u64> = gone.accepted.iter().chain(refused).collect();
        let left = numbered.filter(|(number, _)| !gone.contains(number));
        left.flat_map(|(_, line)| line.to_vec()).collect()
    }

    /// The log with a call behind its last line.
    pub fn with(&self, call: Filling) -> Vec<u8> {
        [&self.text, line(call).as_bytes(), b"\n"].concat()
    }

    /// The slots with other contents and one outcome.
    pub fn slots_behind(&self, other: &Played) -> Vec<u32> {
        let content = |log: &Played, slot: u32| {
            let (value, version, status) = log.plain.slot(slot);
            let (agreed, agreed_version) = log.plain.agreed(slot);
            let came = (version != 0, agreed_version != 0);
            (came, value, status, agreed)
        };
        let outcomes = self.contents.slots.iter().zip(&other.contents.slots);
        (0..)
            .zip(outcomes)
            .filter(|&(slot, (ours, theirs))| {
                ours == theirs && content(self, slot) != content(other, slot)
            })
            .map(|(slot, _)| slot)
            .collect()
    }

    /// The boundaries with other readings that no span with another outcome begins or ends at.
    pub fn readings_behind(&self, other: &Played) -> Vec<u32> {
        let content = |log: &Played, boundary: u32| {
            let (reading, version, width) = log.plain.boundary(boundary);
            (version != 0, reading, width)
        };
        let (ours, theirs) = (&self.contents.spans, &other.contents.spans);
        let here = ours.iter().filter(|span| !theirs.contains(span));
        let there = theirs.iter().filter(|span| !ours.contains(span));
        let moved: BTreeSet<usize> = here
            .chain(there)
            .flat_map(|span| [span.first, span.last])
            .collect();
        (0..=self.log.head.days)
            .filter(|&boundary| content(self, boundary) != content(other, boundary))
            .filter(|&boundary| !moved.contains(&(boundary as usize)))
            .collect()
    }
}
