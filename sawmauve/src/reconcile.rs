//! Two logs: which calls one accepted and the other did not, and what they moved.

use crate::{
    Answer, Book, Call, Cell, Comparison, Error, File, Head, Log, Pair, Played, Reading, Refusal,
    compare,
};
use std::collections::{HashMap, HashSet};

/// Where the other log has a call refused. A conflict (10) at the highest version is when order matters.
#[derive(Clone, Copy, Debug, PartialEq, Eq)]
pub struct Elsewhere {
    /// The first such line.
    pub line: u64,
    /// Why it was refused.
    pub refusal: Refusal,
    /// Whether the call has the highest version of its cell there.
    pub highest: bool,
}

/// A call that one log accepted and the other did not.
#[derive(Clone, Debug, PartialEq, Eq)]
pub struct Listed {
    /// The call.
    pub call: Call,
    /// The lines that were accepted.
    pub lines: Vec<u64>,
    /// The version that its cell has after the last line; none for a holiday.
    pub cell: Option<u32>,
    /// Where the other log has it, refused.
    pub refused: Option<Elsewhere>,
}

/// A slot or a boundary of which both sides have other contents and the same outcome.
#[derive(Clone, Copy, Debug, PartialEq, Eq)]
pub struct Behind<T> {
    /// The slot or the boundary.
    pub at: u32,
    /// What stands there on both sides.
    pub cells: Pair<T>,
}

/// What two logs do not have in common. Where first day, days or interval differ the slots are other times, and nothing but the heads is
/// compared.
#[derive(Clone, Debug, PartialEq, Eq)]
pub struct Reconciliation {
    /// The heads of both, whether they differ or not.
    pub heads: Pair<Head>,
    /// The calls that one alone accepted, by line number.
    pub calls: Pair<Vec<Listed>>,
    /// The slots and spans whose outcome differs; none where the slots are other times.
    pub moved: Option<Comparison>,
    /// The slots whose cells have other contents although the outcomes are equal.
    pub slots: Vec<Behind<Cell>>,
    /// The boundaries whose readings differ although the outcomes are equal.
    pub readings: Vec<Behind<Reading>>,
}

/// What a log has of one call: the lines that were accepted, and the first that was refused.
#[derive(Default)]
struct Lines {
    accepted: Vec<u64>,
    refused: Option<(u64, Refusal)>,
}

/// A log that was played, and its filling calls.
struct Side {
    played: Played,
    calls: HashMap<Call, Lines>,
}

impl Listed {
    /// It has the version that its cell has after the last line; otherwise it was superseded.
    pub fn stands(&self) -> bool {
        self.call.version() == self.cell
    }
}

impl Reconciliation {
    /// First day, days and interval are the same.
    pub fn is_of_same_times(&self) -> bool {
        self.moved.is_some()
    }

    /// Both logs accepted the same calls.
    pub fn has_same_calls(&self) -> bool {
        self.is_of_same_times() && self.calls.ours.is_empty() && self.calls.theirs.is_empty()
    }

    /// The heads are the same and no call is listed, so that the files are equal: part 4 of the claim.
    pub fn is_empty(&self) -> bool {
        self.heads.is_equal() && self.has_same_calls()
    }
}

impl Side {
    fn of(log: &Log) -> Result<Side, Error> {
        let played = log.play()?;
        let mut calls: HashMap<Call, Lines> = HashMap::new();
        for (number, (line, answer)) in (1..).zip(log.lines().zip(played.answers())) {
            let Some(call) = Call::read(line)? else {
                continue;
            };
            match answer {
                Answer::Accepted(_) => calls.entry(call).or_default().accepted.push(number),
                Answer::Refused(refusal) => {
                    let lines = calls.entry(call).or_default();
                    lines.refused.get_or_insert((number, refusal));
                }
                Answer::Nothing | Answer::Done => {}
            }
        }
        Ok(Side { played, calls })
    }

    fn has_accepted(&self, call: &Call) -> bool {
        let lines = self.calls.get(call);
        lines.is_some_and(|lines| !lines.accepted.is_empty())
    }

    /// Where it refused a call.
    fn refused(&self, call: &Call) -> Option<Elsewhere> {
        let (line, refusal) = self.calls.get(call)?.refused?;
        Some(Elsewhere {
            line,
            refusal,
            highest: self.played.book.version_of(call) == call.version(),
        })
    }

    /// The calls that it accepted and the other did not, by line number.
    fn alone(&self, other: &Side) -> Vec<Listed> {
        let accepted = self
            .calls
            .iter()
            .filter(|(call, lines)| !lines.accepted.is_empty() && !other.has_accepted(call));
        let mut alone: Vec<Listed> = accepted
            .map(|(call, lines)| Listed {
                call: *call,
                lines: lines.accepted.clone(),
                cell: self.played.book.version_of(call),
                refused: other.refused(call),
            })
            .collect();
        alone.sort_by(|one, next| one.lines.cmp(&next.lines));
        alone
    }
}

/// What came for a slot, whatever the versions.
fn content(cell: &Cell) -> (bool, u32, u8, bool, u32) {
    let (came, agreed) = (cell.version != 0, cell.agreed_version != 0);
    (came, cell.value, cell.status, agreed, cell.agreed)
}

/// Both cells, where their contents differ.
fn behind<T, C: PartialEq>(
    at: u32,
    cells: Pair<Option<T>>,
    content: fn(&T) -> C,
) -> Option<Behind<T>> {
    let cells = Pair {
        ours: cells.ours?,
        theirs: cells.theirs?,
    };
    (!cells.map(content).is_equal()).then_some(Behind { at, cells })
}

/// The slots with other contents and one outcome.
fn slots_behind(books: Pair<&Book>, moved: &Comparison) -> Vec<Behind<Cell>> {
    let moved: HashSet<u32> = moved
        .runs
        .iter()
        .flat_map(|run| run.first..run.until())
        .collect();
    let slots = 0..books.ours.head.slot_count();
    slots
        .filter(|slot| !moved.contains(slot))
        .filter_map(|slot| behind(slot, books.map(|book| book.cell(slot)), content))
        .collect()
}

/// The boundaries with other readings and the same spans on both sides of them.
fn readings_behind(books: Pair<&Book>, moved: &Comparison) -> Vec<Behind<Reading>> {
    let spans = moved
        .spans
        .iter()
        .flat_map(|spans| [spans.ours, spans.theirs]);
    let moved: HashSet<u32> = spans
        .flatten()
        .flat_map(|span| [span.first, span.last])
        .collect();
    let content = |cell: &Reading| (cell.version != 0, cell.reading, cell.width);
    let boundaries = 0..=books.ours.head.day_count();
    boundaries
        .filter(|boundary| !moved.contains(boundary))
        .filter_map(|at| behind(at, books.map(|book| book.reading(at)), content))
        .collect()
}

fn times(head: &Head) -> (u32, u32, u32, u32, u32) {
    (head.year, head.month, head.day, head.days, head.interval)
}

/// Which calls were accepted in one log and not in the other, and what they moved. Where nothing is listed and the heads are the same the
/// files are equal: part 4 of the claim.
pub fn reconcile(ours: &Log, theirs: &Log) -> Result<Reconciliation, Error> {
    let mut found = Reconciliation {
        heads: Pair {
            ours: ours.head(),
            theirs: theirs.head(),
        },
        calls: Pair::default(),
        moved: None,
        slots: Vec::new(),
        readings: Vec::new(),
    };
    if !found.heads.map(times).is_equal() {
        return Ok(found);
    }
    let (ours, theirs) = (Side::of(ours)?, Side::of(theirs)?);
    found.calls = Pair {
        ours: ours.alone(&theirs),
        theirs: theirs.alone(&ours),
    };
    let books = Pair {
        ours: &ours.played.book,
        theirs: &theirs.played.book,
    };
    let file = |book: &Book| File::read(book.publish()?);
    let moved = compare(&file(books.ours)?, &file(books.theirs)?);
    found.slots = slots_behind(books, &moved);
    found.readings = readings_behind(books, &moved);
    found.moved = Some(moved);
    Ok(found)
}
