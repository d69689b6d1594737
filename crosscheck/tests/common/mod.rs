//! A book for tests: lists, short calls, and the published file taken apart.
#![allow(dead_code)] // each test file uses its part

use crosscheck::number::narrowed;
use crosscheck::second::book::Filed;
use crosscheck::second::head::Head;
use crosscheck::second::lists::{Agreement, Delivery, Lists, RegisterRead};

/// 01's Whole: 2024-05-01, D 1, L 30, the limit of kind 1, t 0.
pub const HEAD: Head = Head {
    year: 2024,
    month: 5,
    day: 1,
    days: 1,
    interval: 30,
    limit: 40_000,
    tolerance: 0,
};

pub fn open(head: Head, lists: &mut Lists) -> Result<(), u8> {
    lists.open(head)
}

pub fn deliver(
    head: Head,
    lists: &mut Lists,
    (slot, version, value, status): (u32, u32, u32, u8),
) -> Result<Filed, u8> {
    let delivery = Delivery {
        slot,
        version,
        value,
        status: status.into(),
    };
    lists.deliver(head, delivery)
}

pub fn register(
    head: Head,
    lists: &mut Lists,
    (boundary, version, reading): (u32, u32, u32),
) -> Result<Filed, u8> {
    register_wide(head, lists, (boundary, version, reading, 0))
}

pub fn register_wide(
    head: Head,
    lists: &mut Lists,
    (boundary, version, reading, width): (u32, u32, u32, u32),
) -> Result<Filed, u8> {
    let read = RegisterRead {
        boundary,
        version,
        reading,
        width,
    };
    lists.register(head, read)
}

pub fn agree(
    head: Head,
    lists: &mut Lists,
    (slot, version, value): (u32, u32, u32),
) -> Result<Filed, u8> {
    let agreement = Agreement {
        slot,
        version,
        value,
    };
    lists.agree(head, agreement)
}

pub fn publish(head: Head, lists: &Lists, out: &mut [u8]) -> Result<usize, u8> {
    lists.publish(head, out)
}

pub struct Test {
    pub head: Head,
    pub lists: Lists,
}

impl Test {
    pub fn new(head: Head) -> Test {
        let shape = head.shape().unwrap();
        let mut lists = Lists::unopened(shape.slots, shape.days);
        open(head, &mut lists).unwrap();
        Test { head, lists }
    }

    pub fn deliver(&mut self, slot: usize, value: u32, status: u8) {
        let delivery = (narrowed(slot), 1, value, status);
        assert_eq!(
            deliver(self.head, &mut self.lists, delivery),
            Ok(Filed::Stored)
        );
    }

    pub fn redeliver(&mut self, slot: usize, value: u32, status: u8) {
        let delivery = (narrowed(slot), 2, value, status);
        assert_eq!(
            deliver(self.head, &mut self.lists, delivery),
            Ok(Filed::Stored)
        );
    }

    pub fn deliver_all(&mut self, value: u32) {
        (0..self.lists.values.len()).for_each(|slot| self.deliver(slot, value, 0));
    }

    pub fn holiday(&mut self, day: u32) {
        let answer = self.lists.holiday(self.head, day);
        assert_eq!(answer, Ok(Filed::Stored));
    }

    pub fn agree(&mut self, slot: usize, value: u32) {
        let agreement = (narrowed(slot), 1, value);
        assert_eq!(
            agree(self.head, &mut self.lists, agreement),
            Ok(Filed::Stored)
        );
    }

    pub fn register(&mut self, boundary: u32, reading: u32) {
        self.register_wide(boundary, reading, 0);
    }

    pub fn register_wide(&mut self, boundary: u32, reading: u32, width: u32) {
        let read = (boundary, 1, reading, width);
        assert_eq!(
            register_wide(self.head, &mut self.lists, read),
            Ok(Filed::Stored)
        );
    }

    pub fn file(&self) -> Vec<u8> {
        let mut out = vec![0; 6 * self.lists.values.len() + 14 * self.lists.holidays.len() + 32];
        let length = publish(self.head, &self.lists, &mut out).unwrap();
        out.truncate(length);
        out
    }

    /// Value, quality letter and method.
    pub fn slot(&self, slot: usize) -> (u32, char, u8) {
        let file = self.file();
        let record = &file[6 * slot..6 * slot + 6];
        let value = u32::from_le_bytes(record[..4].try_into().unwrap());
        (value, record[4] as char, record[5])
    }

    /// First boundary, last boundary, R and state of spans with one advance.
    pub fn spans(&self) -> Vec<(u16, u16, u32, u8)> {
        let ranges = self.ranges().into_iter();
        ranges
            .map(|(first, last, lowest, highest, state)| {
                assert_eq!(lowest, highest);
                (first, last, lowest, state)
            })
            .collect()
    }

    /// First boundary, last boundary, lowest and highest advance and state.
    pub fn ranges(&self) -> Vec<(u16, u16, u32, u32, u8)> {
        let file = self.file();
        let table = &file[6 * self.lists.values.len()..file.len() - 32];
        table
            .chunks(14)
            .map(|record| {
                assert_eq!(record[13], 0);
                (
                    u16::from_le_bytes(record[0..2].try_into().unwrap()),
                    u16::from_le_bytes(record[2..4].try_into().unwrap()),
                    u32::from_le_bytes(record[4..8].try_into().unwrap()),
                    u32::from_le_bytes(record[8..12].try_into().unwrap()),
                    record[12],
                )
            })
            .collect()
    }
}
