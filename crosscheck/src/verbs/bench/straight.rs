//! The straight pass: each slot tested and its record written, with no slot filled, no span and
//! nothing counted. Publishing an ordinary book can come near it and not below.

use crosscheck::second::head::Head;
use crosscheck::second::lists::Lists;
use crosscheck::second::rules::{PARTIAL, TIME_CHANGE};

/// Writes the good slots' records as A and the others' as N.
pub fn pass(head: &Head, lists: &Lists, out: &mut [u8]) {
    let most = u64::from(head.limit) * u64::from(head.interval);
    let delivered = lists.values.iter().zip(lists.versions.iter());
    let slots = delivered.zip(lists.statuses.iter());
    for (((&value, &version), &status), record) in slots.zip(out.chunks_exact_mut(6)) {
        let good =
            version != 0 && status & (TIME_CHANGE | PARTIAL) == 0 && u64::from(value) * 60 <= most;
        let (value, letter) = if good { (value, b'A') } else { (0, b'N') };
        record[..4].copy_from_slice(&value.to_le_bytes());
        record[4..].copy_from_slice(&[letter, 0]);
    }
}
