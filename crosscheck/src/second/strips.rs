//! 02, W13: a slot table as differences from the day before, in six strips, and back.

use crate::second::file::SLOT_BYTES;
use crate::second::head::{self, MOST_DAYS};
use crate::second::refusal;

/// Lays a slot table out as six strips, each value as its difference from the day before.
pub fn to_strips(interval: u32, table: &[u8], out: &mut [u8]) -> Result<(), u8> {
    let slots_a_day = slots_a_day(interval, table, out)?;
    let slots = table.len() / SLOT_BYTES;
    for slot in 0..slots {
        let record = &table[SLOT_BYTES * slot..][..SLOT_BYTES];
        let difference = value(table, slot).wrapping_sub(day_before(table, slot, slots_a_day));
        let [first, second, third, fourth] = difference.to_le_bytes();
        let bytes = [first, second, third, fourth, record[4], record[5]];
        for (strip, byte) in bytes.into_iter().enumerate() {
            out[strip * slots + slot] = byte;
        }
    }
    Ok(())
}

/// The inverse: the slot table that six strips come from.
pub fn from_strips(interval: u32, strips: &[u8], out: &mut [u8]) -> Result<(), u8> {
    let slots_a_day = slots_a_day(interval, strips, out)?;
    let slots = strips.len() / SLOT_BYTES;
    for slot in 0..slots {
        let byte = |strip: usize| strips[strip * slots + slot];
        let difference = u32::from_le_bytes([byte(0), byte(1), byte(2), byte(3)]);
        // The day before is restored already.
        let value = difference.wrapping_add(day_before(out, slot, slots_a_day));
        let record = &mut out[SLOT_BYTES * slot..][..SLOT_BYTES];
        record[..4].copy_from_slice(&value.to_le_bytes());
        (record[4], record[5]) = (byte(4), byte(5));
    }
    Ok(())
}

/// n of an interval length and two parts of 1 to 400 days; 22 comes after 1.
fn slots_a_day(interval: u32, given: &[u8], out: &[u8]) -> Result<usize, u8> {
    if !head::interval_known(interval) {
        return Err(refusal::HEAD);
    }
    let slots_a_day = (1440 / interval) as usize;
    let day = SLOT_BYTES * slots_a_day;
    let days = given.len() / day;
    if given.len() != day * days
        || !(1..=MOST_DAYS as usize).contains(&days)
        || out.len() != given.len()
    {
        return Err(refusal::STRIPS);
    }
    Ok(slots_a_day)
}

fn value(table: &[u8], slot: usize) -> u32 {
    let at = SLOT_BYTES * slot;
    u32::from_le_bytes([table[at], table[at + 1], table[at + 2], table[at + 3]])
}

/// The value of the same position a day earlier; 0 on the first day.
fn day_before(table: &[u8], slot: usize, slots_a_day: usize) -> u32 {
    match slot.checked_sub(slots_a_day) {
        Some(earlier) => value(table, earlier),
        None => 0,
    }
}

/// As the other build's call answers: 0 or the refusal.
pub fn to_strips_code(interval: u32, table: &[u8], out: &mut [u8]) -> u32 {
    code(to_strips(interval, table, out))
}

/// As the other build's call answers: 0 or the refusal.
pub fn from_strips_code(interval: u32, strips: &[u8], out: &mut [u8]) -> u32 {
    code(from_strips(interval, strips, out))
}

fn code(result: Result<(), u8>) -> u32 {
    match result {
        Ok(()) => 0,
        Err(number) => number.into(),
    }
}
