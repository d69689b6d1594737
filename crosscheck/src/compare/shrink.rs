//! Finds a short list of calls that still differs.

use std::time::{Duration, Instant};

/// Shrinking stops after this long and keeps what it has.
const LIMIT: Duration = Duration::from_secs(20);

/// Removes items, many at once at first and then one after another, while `differs` holds.
pub fn shrink<T: Clone>(list: &[T], differs: impl Fn(&[T]) -> bool) -> Vec<T> {
    let start = Instant::now();
    let mut kept = list.to_vec();
    let mut size = kept.len().div_ceil(2).max(1);
    loop {
        let before = kept.len();
        let mut at = 0;
        while at < kept.len() && start.elapsed() < LIMIT {
            let end = (at + size).min(kept.len());
            let shorter = [&kept[..at], &kept[end..]].concat();
            if differs(&shorter) {
                kept = shorter;
            } else {
                at = end;
            }
        }
        let changed = kept.len() < before;
        if start.elapsed() >= LIMIT || (size == 1 && !changed) {
            return kept;
        }
        if size > 1 {
            size /= 2;
        }
    }
}

#[cfg(test)]
mod tests {
    use super::shrink;

    #[test]
    fn only_what_matters_is_left() {
        let list: Vec<u32> = (0..1000).collect();
        let both = |list: &[u32]| list.contains(&17) && list.contains(&801);
        assert_eq!(shrink(&list, both), [17, 801]);
    }
}
