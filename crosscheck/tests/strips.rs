//! 02, W13: storage on the small box.

use crosscheck::number::narrowed;
use crosscheck::second::strips::{from_strips, from_strips_code, to_strips, to_strips_code};

mod common;
use common::*;

/// A table of these values, in slot order, with these letters and methods.
fn table(records: &[(u32, u8, u8)]) -> Vec<u8> {
    let bytes = |&(value, letter, method): &(u32, u8, u8)| {
        [&value.to_le_bytes()[..], &[letter, method]].concat()
    };
    records.iter().flat_map(bytes).collect()
}

fn strips(interval: u32, table: &[u8]) -> Vec<u8> {
    let mut out = vec![0xEE; table.len()];
    assert_eq!(to_strips(interval, table, &mut out), Ok(()));
    out
}

fn back(interval: u32, strips: &[u8]) -> Vec<u8> {
    let mut out = vec![0xEE; strips.len()];
    assert_eq!(from_strips(interval, strips, &mut out), Ok(()));
    out
}

#[test]
fn two_days_by_hand() {
    // Slot 0: 0x01020304, then one less. Slot 1: 0, then 4,294,967,295. Slot 47: 9, then 9.
    let mut records = vec![(0, b'A', 0); 96];
    records[0] = (0x0102_0304, b'S', 2);
    records[48] = (0x0102_0303, b'S', 19);
    records[49] = (u32::MAX, b'F', 5);
    records[47] = (9, b'A', 0);
    records[95] = (9, b'N', 7);
    let table = table(&records);
    let strips = strips(30, &table);
    let strip = |k: usize| &strips[96 * k..96 * (k + 1)];
    for (k, byte) in [4, 3, 2, 1].into_iter().enumerate() {
        assert_eq!(strip(k)[0], byte);
        assert_eq!(strip(k)[48], 0xFF, "one less is 4,294,967,295");
        assert_eq!(strip(k)[49], 0xFF);
        assert_eq!(strip(k)[95], 0, "9 as the day before");
    }
    assert_eq!(strip(0)[47], 9);
    assert_eq!(strip(4)[0], b'S');
    assert_eq!(strip(4)[49], b'F');
    assert_eq!(strip(4)[1], b'A');
    assert_eq!(strip(5)[48], 19);
    assert_eq!(strip(5)[95], 7);
    assert_eq!(back(30, &strips), table);
}

#[test]
fn the_first_day_is_only_laid_out() {
    let bytes: Vec<u8> = (0..6 * 48).map(|i| narrowed(i % 256)).collect();
    let strips = strips(30, &bytes);
    for slot in 0..48 {
        for k in 0..6 {
            assert_eq!(strips[48 * k + slot], bytes[6 * slot + k]);
        }
    }
}

#[test]
fn strips_are_summed_back() {
    // A first strip of ones: each day's value is one more than the day before's.
    let mut strips = vec![0; 6 * 96 * 3];
    strips[..96 * 3].fill(1);
    let table = back(15, &strips);
    for (slot, record) in table.chunks(6).enumerate() {
        assert_eq!(record, [1 + narrowed::<u8>(slot / 96), 0, 0, 0, 0, 0]);
    }
    // Strips of 0xFF: −1, −2, −3 modulo 4,294,967,296.
    let table = back(15, &[0xFF; 6 * 96 * 3]);
    assert_eq!(table[..6], [0xFF; 6]);
    assert_eq!(table[6 * 96..][..6], [0xFE, 0xFF, 0xFF, 0xFF, 0xFF, 0xFF]);
    assert_eq!(table[6 * 192..][..6], [0xFD, 0xFF, 0xFF, 0xFF, 0xFF, 0xFF]);
}

#[test]
fn an_unchanged_day_is_zero() {
    let mut test = Test::new(crosscheck::second::head::Head { days: 2, ..HEAD });
    test.deliver_all(12_345);
    let file = test.file();
    let strips = strips(30, &file[..6 * 96]);
    for k in 0..4 {
        assert_eq!(strips[96 * k + 48..96 * (k + 1)], [0; 48]);
    }
    assert_eq!(back(30, &strips), file[..6 * 96]);
}

#[test]
fn there_and_back_from_either_side() {
    for (interval, days) in [(5, 1), (5, 3), (15, 2), (30, 7), (30, 400)] {
        let len = 6 * (1440 / interval as usize) * days;
        let bytes: Vec<u8> = (0..len).map(|i| narrowed(i * i / 7 % 256)).collect();
        assert_eq!(back(interval, &strips(interval, &bytes)), bytes);
        assert_eq!(strips(interval, &back(interval, &bytes)), bytes);
    }
}

fn refused(interval: u32, len: usize, out_len: usize) -> u32 {
    let given = vec![1; len];
    let mut out = vec![0xEE; out_len];
    let number = to_strips_code(interval, &given, &mut out);
    assert_eq!(number, from_strips_code(interval, &given, &mut out));
    assert_eq!(out, vec![0xEE; out_len], "no byte changes");
    number
}

#[test]
fn a_wrong_length_is_22() {
    for (interval, day) in [(5, 1728), (15, 576), (30, 288)] {
        for len in [0, 1, 6, day - 1, day + 1, day - 6, 2 * day + day / 2] {
            assert_eq!(refused(interval, len, len), 22, "{interval} {len}");
        }
        assert_eq!(refused(interval, 401 * day, 401 * day), 22);
        for out_len in [0, day - 1, day + 1, 2 * day] {
            assert_eq!(refused(interval, day, out_len), 22);
        }
        let mut out = vec![0; 400 * day];
        assert_eq!(to_strips(interval, &vec![1; 400 * day], &mut out), Ok(()));
        assert_eq!(
            from_strips(interval, &vec![1; day], &mut out[..day]),
            Ok(())
        );
    }
}

#[test]
fn a_wrong_interval_is_1_before_22() {
    for interval in [0, 1, 4, 6, 10, 20, 31, 60, 1440, u32::MAX] {
        assert_eq!(refused(interval, 288, 288), 1);
        assert_eq!(refused(interval, 0, 0), 1);
        assert_eq!(refused(interval, 288, 287), 1);
    }
}
