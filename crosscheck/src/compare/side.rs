//! One build of the book, as the comparison sees it.

use crate::compare::calls::{Act, Call};
use crate::second::book::Filed;
use crate::second::head::Head;
use crate::second::lists::{Agreement, Delivery, Lists, RegisterRead};
use crate::second::reader::{self, Figures};

#[derive(Clone, Copy, Debug, PartialEq, Eq)]
pub enum Answer {
    Done,
    Filed(Filed),
    Length(u64),
    Refused(u64),
}

/// The calls of a build; the lists not lent to a call are not looked at.
pub trait Side {
    fn open(&self, head: Head, lists: &mut Lists) -> Answer;
    fn deliver(&self, head: Head, lists: &mut Lists, delivery: Delivery) -> Answer;
    fn holiday(&self, head: Head, lists: &mut Lists, day: u32) -> Answer;
    fn register(&self, head: Head, lists: &mut Lists, read: RegisterRead) -> Answer;
    fn agree(&self, head: Head, lists: &mut Lists, agreement: Agreement) -> Answer;
    fn publish(&self, head: Head, lists: &Lists, out: &mut [u8]) -> Answer;
    fn read(&self, file: &[u8]) -> Result<Figures, u64>;
    /// The length of the tables' part.
    fn tables(&self, file: &[u8]) -> u64;
    /// What else a side promises of its reader, beside 01.
    fn keeps_convention(&self, _file: &[u8]) -> bool {
        true
    }
}

/// Makes one call; none for what is no call.
pub fn apply(side: &dyn Side, call: &Call, lists: &mut Lists, out: &mut [u8]) -> Option<Answer> {
    let head = call.head;
    match call.act {
        Act::Open => Some(side.open(head, lists)),
        Act::Deliver(delivery) => Some(side.deliver(head, lists, delivery)),
        Act::Holiday { day } => Some(side.holiday(head, lists, day)),
        Act::Register(read) => Some(side.register(head, lists, read)),
        Act::Agree(agreement) => Some(side.agree(head, lists, agreement)),
        Act::Publish { .. } => Some(side.publish(head, lists, out)),
        Act::Write { list, index, value } => {
            lists.write(list, index, value);
            None
        }
    }
}

/// The second build itself.
pub struct Second;

pub fn filed_answer(result: Result<Filed, u8>) -> Answer {
    match result {
        Ok(filed) => Answer::Filed(filed),
        Err(number) => Answer::Refused(number.into()),
    }
}

impl Side for Second {
    fn open(&self, head: Head, lists: &mut Lists) -> Answer {
        match lists.open(head) {
            Ok(()) => Answer::Done,
            Err(number) => Answer::Refused(number.into()),
        }
    }

    fn deliver(&self, head: Head, lists: &mut Lists, delivery: Delivery) -> Answer {
        filed_answer(lists.deliver(head, delivery))
    }

    fn holiday(&self, head: Head, lists: &mut Lists, day: u32) -> Answer {
        filed_answer(lists.holiday(head, day))
    }

    fn register(&self, head: Head, lists: &mut Lists, read: RegisterRead) -> Answer {
        filed_answer(lists.register(head, read))
    }

    fn agree(&self, head: Head, lists: &mut Lists, agreement: Agreement) -> Answer {
        filed_answer(lists.agree(head, agreement))
    }

    fn publish(&self, head: Head, lists: &Lists, out: &mut [u8]) -> Answer {
        match lists.publish(head, out) {
            Ok(length) => Answer::Length(length as u64),
            Err(number) => Answer::Refused(number.into()),
        }
    }

    fn read(&self, file: &[u8]) -> Result<Figures, u64> {
        reader::read(file).map_err(u64::from)
    }

    fn tables(&self, file: &[u8]) -> u64 {
        reader::tables(file).len() as u64
    }
}
