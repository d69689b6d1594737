//! 02, W11: up to 64 stays of a season totalled together.

use crate::number::narrowed;
use crate::second::file::SLOT_BYTES;
use crate::second::reader::{self, Figures};
use crate::second::refusal;

/// The most pairs of one question.
pub const MOST_STAYS: usize = 64;

/// Totals of a file's slots, for pairs of a first day and the day after the last.
pub fn stays(file: &[u8], pairs: &[u32], totals: &mut [u64]) -> Result<(), u8> {
    let figures = reader::read(file)?;
    let many = pairs.len() / 2;
    if pairs.len() != 2 * many || many > MOST_STAYS || totals.len() != many {
        return Err(refusal::STAYS);
    }
    let in_book = |pair: &[u32]| pair[0] < pair[1] && u64::from(pair[1]) <= figures.days;
    if !pairs.chunks_exact(2).all(in_book) {
        return Err(refusal::STAY_DAYS);
    }
    let sums = running_sums(file, &figures);
    for (total, pair) in totals.iter_mut().zip(pairs.chunks_exact(2)) {
        *total = sums[pair[1] as usize] - sums[pair[0] as usize];
    }
    Ok(())
}

/// The sum of all slots before each boundary, so that a stay is one subtraction.
fn running_sums(file: &[u8], figures: &Figures) -> Vec<u64> {
    let slots_a_day = 1440 / narrowed::<usize>(figures.interval);
    let mut sums = vec![0];
    let mut sum = 0;
    let days = file.chunks_exact(SLOT_BYTES * slots_a_day);
    for day in days.take(narrowed(figures.days)) {
        sum += day.chunks_exact(SLOT_BYTES).map(value).sum::<u64>();
        sums.push(sum);
    }
    sums
}

fn value(record: &[u8]) -> u64 {
    u32::from_le_bytes([record[0], record[1], record[2], record[3]]).into()
}

/// As the other build's call answers: 0 or the refusal.
pub fn stays_code(file: &[u8], pairs: &[u32], totals: &mut [u64]) -> u32 {
    match stays(file, pairs, totals) {
        Ok(()) => 0,
        Err(number) => number.into(),
    }
}
