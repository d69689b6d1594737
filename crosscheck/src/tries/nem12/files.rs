//! Accepted files made slot by slot, for W8: what publishing seldom or never gives.

use crate::compare::rng::Rng;
use crate::number::narrowed;
use crate::second::head::LAST_DAY;
use crate::second::market::{Codes, METHODS};

/// Value, letter and method.
pub type Record = (u32, u8, u8);

/// A file's content. The first `scaled` days are one scaled span where they hold a
/// method 18 or 19; the others are in a second span or in none.
#[derive(Clone, Debug)]
pub struct Made {
    first_day: u32,
    days: usize,
    interval: u32,
    scaled: usize,
    second_span: bool,
    /// Written in layout 3, its spans with a range; otherwise in layout 1 or 2.
    wide: bool,
    slots: Vec<Record>,
}

/// The kinds of slots outside a scaled span, and in one.
const FREE: [(u8, u8); 6] = [
    (b'A', 0),
    (b'A', 1),
    (b'S', 2),
    (b'S', 3),
    (b'F', 5),
    (b'N', 0),
];
const SCALED: [(u8, u8); 5] = [(b'A', 0), (b'A', 1), (b'S', 18), (b'S', 19), (b'F', 5)];

const MOST_AGREED: u32 = 99_999_999;

/// The other method that a record's value and letter allow.
fn other_method(record: Record) -> u8 {
    match record {
        (_, b'S', method) | (0, b'A', method) => method ^ 1,
        (.., method) => method,
    }
}

impl Made {
    pub fn random(rng: &mut Rng) -> Made {
        let days = rng.pick(&[1, 1, 1, 2, 2, 3, 5, 31]);
        let interval = rng.pick(&[5, 15, 30, 30]);
        Made::of_size(rng, days, interval)
    }

    pub fn of_size(rng: &mut Rng, days: usize, interval: u32) -> Made {
        let latest = LAST_DAY + 1 - narrowed::<u32>(days);
        let first_day = match rng.below(5) {
            0 => latest,
            // Around 2000-02-29, 2001-01-01 and 2024-02-29.
            1 => rng.pick(&[58, 59, 365, 366, 8825, 8824]),
            _ => rng.between(0, latest),
        };
        let scaled = rng.pick(&[0, 0, 1, 2, 3]).min(days);
        let mut made = Made {
            first_day,
            days,
            interval,
            scaled,
            second_span: rng.one_in(3),
            wide: rng.one_in(2),
            slots: Vec::new(),
        };
        for day in 0..days {
            let kinds: &[(u8, u8)] = if day < scaled { &SCALED } else { &FREE };
            for (letter, method) in day_kinds(rng, kinds, 1440 / interval as usize) {
                let value = value(rng, letter, method, day < scaled);
                made.slots.push((value, letter, method));
            }
        }
        made
    }

    /// Like this one but for a slot, the spans, the layout, the first day, or nothing.
    pub fn changed(&self, rng: &mut Rng) -> Made {
        let mut made = self.clone();
        let n = 1440 / self.interval as usize;
        let at = rng.below(made.slots.len());
        let in_scaled = at / n < self.scaled;
        let kinds: &[(u8, u8)] = if in_scaled { &SCALED } else { &FREE };
        let (was, letter, method) = made.slots[at];
        match rng.below(9) {
            0 => made.second_span = !made.second_span,
            8 => made.wide = !made.wide,
            1 if made.first_day > 0 => made.first_day -= 1,
            2 | 3 => {
                let (letter, method) = rng.pick(kinds);
                made.slots[at] = (value(rng, letter, method, in_scaled), letter, method);
            }
            4 => made
                .slots
                .iter_mut()
                .for_each(|slot| slot.2 = other_method(*slot)),
            5 | 6 => made.slots[at].2 = other_method(made.slots[at]),
            _ if !matches!((letter, method), (b'A', 1) | (b'N', 0)) => {
                let most = if letter == b'F' {
                    MOST_AGREED
                } else {
                    u32::MAX
                };
                made.slots[at].0 = if was < most { was + 1 } else { was - 1 };
            }
            _ => {}
        }
        made
    }

    /// First day, D, L and each slot's value and written quality and method.
    pub fn written(&self, codes: Codes) -> (u32, usize, u32, Vec<(u32, u8, String)>) {
        let slots = self.slots.iter();
        let slots = slots.map(|&(value, letter, method)| (value, letter, code_text(method, codes)));
        (self.first_day, self.days, self.interval, slots.collect())
    }

    pub fn file(&self) -> Vec<u8> {
        let mut file = Vec::new();
        for &(value, letter, method) in &self.slots {
            file.extend(value.to_le_bytes());
            file.extend([letter, method]);
        }
        let spans = self.spans();
        for &(first, last, advance, state) in &spans {
            file.extend(narrowed::<u16>(first).to_le_bytes());
            file.extend(narrowed::<u16>(last).to_le_bytes());
            if self.wide {
                file.extend(advance.saturating_sub(narrowed(first)).to_le_bytes());
                file.extend((advance + narrowed::<u32>(last)).to_le_bytes());
            } else {
                file.extend(advance.to_le_bytes());
            }
            file.extend([state, 0]);
        }
        let count = |letters: &[u8]| {
            let counted = self.slots.iter().filter(|slot| letters.contains(&slot.1));
            narrowed::<u32>(counted.count())
        };
        file.extend(narrowed::<u16>(self.first_day).to_le_bytes());
        file.extend(narrowed::<u16>(self.days).to_le_bytes());
        file.push(narrowed::<u8>(self.interval));
        let (layout, record) = match (self.wide, count(b"F")) {
            (true, _) => (3, 14),
            (false, 0) => (1, 10),
            (false, _) => (2, 10),
        };
        file.push(layout);
        file.extend(narrowed::<u16>(spans.len()).to_le_bytes());
        for letters in [&b"A"[..], b"SF", b"N"] {
            file.extend(count(letters).to_le_bytes());
        }
        file.extend(sum(&self.slots).to_le_bytes());
        file.extend((record * narrowed::<u32>(spans.len())).to_le_bytes());
        file
    }

    /// First boundary, last boundary, R and state.
    fn spans(&self) -> Vec<(usize, usize, u32, u8)> {
        let n = 1440 / self.interval as usize;
        let (first, rest) = self.slots.split_at(n * self.scaled);
        let mut spans = Vec::new();
        if first.iter().any(|slot| slot.2 > 5) {
            spans.push((0, self.scaled, narrowed(sum(first)), 1));
        }
        if self.second_span && !rest.is_empty() {
            let none = rest.iter().any(|slot| slot.1 == b'N');
            let state = if none { 2 } else { 3 };
            spans.push((self.scaled, self.days, self.first_day, state));
        }
        spans
    }
}

fn sum(slots: &[Record]) -> u64 {
    slots.iter().map(|slot| u64::from(slot.0)).sum()
}

/// The code of a method in two digits; empty where it has none.
pub fn code_text(method: u8, codes: Codes) -> String {
    let place = METHODS.iter().position(|&other| other == method);
    place.map_or(String::new(), |place| {
        let code = codes[place];
        format!("{}{}", code / 10, code % 10)
    })
}

/// A day's kinds: alike, nearly alike, or in runs.
fn day_kinds(rng: &mut Rng, kinds: &[(u8, u8)], n: usize) -> Vec<(u8, u8)> {
    let one = rng.pick(kinds);
    match rng.below(10) {
        0 => vec![kinds[0]; n],
        1 | 2 => vec![one; n],
        // (A,0) and (A,1), or two S methods.
        3 | 4 => {
            let pair = rng.pick(&[[kinds[0], kinds[1]], [kinds[2], kinds[3]]]);
            (0..n).map(|_| rng.pick(&pair)).collect()
        }
        5 | 6 => {
            let mut day = vec![one; n];
            let any = rng.below(n);
            let at = rng.pick(&[0, n - 1, any]);
            day[at] = rng.pick(kinds);
            day
        }
        7 | 8 => {
            let mut day = Vec::new();
            while day.len() < n {
                let most = rng.pick(&[1, 4, 20]);
                let many = 1 + rng.below(most);
                let kind = rng.pick(kinds);
                day.extend(vec![kind; many.min(n - day.len())]);
            }
            day
        }
        _ => {
            // Each slot unlike the one before.
            let mut day = vec![one];
            while day.len() < n {
                let letter = |&&kind: &&(u8, u8)| kind.0 != day[day.len() - 1].0;
                let others: Vec<(u8, u8)> = kinds.iter().filter(letter).copied().collect();
                day.push(rng.pick(&others));
            }
            day
        }
    }
}

/// A value that the reader takes; small in a scaled span, whose sum is an eight-digit R.
fn value(rng: &mut Rng, letter: u8, method: u8, scaled: bool) -> u32 {
    let small = rng.between(0, 2000);
    let any = rng.word() >> rng.below(32);
    let edge = rng.pick(&[0, 5, 620, 999, 1000, 1001, 10_000, 99_999_999, u32::MAX]);
    match (letter, method) {
        (b'A', 1) | (b'N', _) => 0,
        _ if scaled => rng.pick(&[small, small, 0, 5, 1000]),
        (b'F', _) => rng.pick(&[small, any, edge]).min(MOST_AGREED),
        _ => rng.pick(&[small, small, any, edge]),
    }
}
