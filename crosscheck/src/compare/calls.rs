//! A list of calls on one book, as data.

use crate::second::head::Head;
use crate::second::lists::{Agreement, Delivery, List, RegisterRead};

/// How long the output buffer of a publishing is, beside the file it would take.
#[derive(Clone, Copy, Debug, PartialEq, Eq)]
pub enum Room {
    Exact,
    Over(usize),
    Under(usize),
    Of(usize),
}

#[derive(Clone, Copy, Debug, PartialEq, Eq)]
pub enum Act {
    Open,
    Deliver(Delivery),
    Holiday {
        day: u32,
    },
    Register(RegisterRead),
    Agree(Agreement),
    Publish {
        room: Room,
    },
    /// No call: a cell is written by someone else.
    Write {
        list: List,
        index: usize,
        value: u32,
    },
}

impl Act {
    /// The lists lent to this call.
    pub fn lent(&self) -> &'static [List] {
        match self {
            Act::Open | Act::Publish { .. } => &List::ALL,
            Act::Deliver(_) => &[List::Values, List::Versions, List::Statuses, List::Counts],
            Act::Holiday { .. } => &[List::Holidays],
            Act::Register(_) => &[List::Readings, List::ReadVersions, List::Widths],
            Act::Agree(_) => &[List::Agreed, List::AgreedVersions],
            Act::Write { .. } => &[],
        }
    }
}

#[derive(Clone, Copy, Debug, PartialEq, Eq)]
pub struct Call {
    pub head: Head,
    /// A list lent with another length, for this call only.
    pub resized: Option<(List, usize)>,
    pub act: Act,
}

/// A head, the lengths the lists are made with, and the calls in order.
#[derive(Clone, Debug)]
pub struct Book {
    pub head: Head,
    pub slots: usize,
    pub days: usize,
    pub calls: Vec<Call>,
}
