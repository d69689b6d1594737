//! Compares strips and their inverse, W13, with a restatement and another build.

use crate::compare::rng::Rng;
use crate::number::narrowed;
use crate::second::strips;
use crate::tries::{Tally, hex, noise};

type Convert = fn(u32, &[u8], &mut [u8]) -> u32;

/// The two conversions of one build: interval, given bytes, output; 0 or the refusal.
#[derive(Clone, Copy)]
pub struct Strips {
    pub to: Convert,
    pub from: Convert,
}

pub const SECOND: Strips = Strips {
    to: strips::to_strips_code,
    from: strips::from_strips_code,
};

pub const CLASSES: &[&str] = &[
    "to strips, L 5, D 1",
    "to strips, L 5, D 2",
    "to strips, L 5, D 31",
    "to strips, L 5, D 400",
    "to strips, L 15, D 1",
    "to strips, L 15, D 2",
    "to strips, L 15, D 31",
    "to strips, L 15, D 400",
    "to strips, L 30, D 1",
    "to strips, L 30, D 2",
    "to strips, L 30, D 31",
    "to strips, L 30, D 400",
    "to strips, other D",
    "to strips, 0 bytes",
    "to strips, one byte more",
    "to strips, one byte less",
    "to strips, D 401",
    "to strips, no whole number of days",
    "to strips, output one shorter",
    "to strips, output one longer",
    "to strips, output empty",
    "to strips, wrong interval",
    "to strips, 1 before 22",
    "to strips, refused, output unchanged",
    "from strips, L 5, D 1",
    "from strips, L 5, D 2",
    "from strips, L 5, D 31",
    "from strips, L 5, D 400",
    "from strips, L 15, D 1",
    "from strips, L 15, D 2",
    "from strips, L 15, D 31",
    "from strips, L 15, D 400",
    "from strips, L 30, D 1",
    "from strips, L 30, D 2",
    "from strips, L 30, D 31",
    "from strips, L 30, D 400",
    "from strips, other D",
    "from strips, 0 bytes",
    "from strips, one byte more",
    "from strips, one byte less",
    "from strips, D 401",
    "from strips, no whole number of days",
    "from strips, output one shorter",
    "from strips, output one longer",
    "from strips, output empty",
    "from strips, wrong interval",
    "from strips, 1 before 22",
    "from strips, refused, output unchanged",
    "there and back from a table",
    "there and back from strips",
];

const INTERVALS: [u32; 3] = [5, 15, 30];
const DAYS: [usize; 4] = [1, 2, 31, 400];

/// One try: which kind it is goes by its number.
pub fn one(
    rng: &mut Rng,
    index: u64,
    other: Option<Strips>,
    tally: &mut Tally,
) -> Result<(), String> {
    let mut check = Check { other, tally };
    let index: usize = narrowed(index);
    match index % 24 {
        at @ 0..12 => {
            let (interval, days) = (INTERVALS[at / 4], DAYS[at % 4]);
            check.whole(rng, interval, days, &format!("L {interval}, D {days}"))
        }
        12 | 13 => {
            let (interval, days) = (rng.pick(&INTERVALS), 3 + rng.below(28));
            check.whole(rng, interval, days, "other D")
        }
        14..18 => check.wrong_interval(rng),
        at => check.wrong_length(rng, at + index / 24),
    }
}

/// One of the two calls.
#[derive(Clone, Copy)]
enum Way {
    To,
    From,
}

impl Way {
    fn name(self) -> &'static str {
        match self {
            Way::To => "to strips",
            Way::From => "from strips",
        }
    }

    fn of(self, side: Strips) -> Convert {
        match self {
            Way::To => side.to,
            Way::From => side.from,
        }
    }
}

/// A call's input: interval, given bytes and what the output holds before.
struct Input {
    interval: u32,
    given: Vec<u8>,
    before: Vec<u8>,
}

struct Check<'a> {
    other: Option<Strips>,
    tally: &'a mut Tally,
}

impl Check<'_> {
    /// The same bytes as a table and as strips, there and back.
    fn whole(
        &mut self,
        rng: &mut Rng,
        interval: u32,
        days: usize,
        class: &str,
    ) -> Result<(), String> {
        let len = day_bytes(interval) * days;
        let input = Input {
            interval,
            given: content(rng, len),
            before: vec![rng.byte(); len],
        };
        for (way, inverse, back) in [
            (Way::To, Way::From, "there and back from a table"),
            (Way::From, Way::To, "there and back from strips"),
        ] {
            let there = self.answered(way, &input, 0)?;
            self.tally.add(&format!("{}, {class}", way.name()));
            let mut again = vec![0; len];
            inverse.of(SECOND)(interval, &there, &mut again);
            if again != input.given {
                return Err(format!("{}: not back; {}", way.name(), input.print()));
            }
            self.tally.add(back);
        }
        Ok(())
    }

    fn wrong_interval(&mut self, rng: &mut Rng) -> Result<(), String> {
        let any = rng.word() | 64;
        let interval = rng.pick(&[0, 1, 4, 6, 10, 20, 29, 31, 60, 1440, any, u32::MAX]);
        let right = day_bytes(rng.pick(&INTERVALS)) * rng.pick(&[1, 2]);
        // The second output is one that 22 would refuse too.
        for (out, class) in [(right, "wrong interval"), (right - 1, "1 before 22")] {
            let input = Input {
                interval,
                given: noise(rng, right),
                before: noise(rng, out),
            };
            self.refused(&input, 1, class)?;
        }
        Ok(())
    }

    fn wrong_length(&mut self, rng: &mut Rng, kind: usize) -> Result<(), String> {
        let interval = rng.pick(&INTERVALS);
        let day = day_bytes(interval);
        let right = day * rng.pick(&[1, 1, 2, 3]);
        let part = 1 + rng.below(day - 1);
        let (len, out, class) = match kind % 8 {
            0 => (0, 0, "0 bytes"),
            1 => (right + 1, right + 1, "one byte more"),
            2 => (right - 1, right - 1, "one byte less"),
            3 => (day * 401, day * 401, "D 401"),
            4 => (right + part, right + part, "no whole number of days"),
            5 => (right, right - 1, "output one shorter"),
            6 => (right, right + 1, "output one longer"),
            _ => (right, 0, "output empty"),
        };
        let input = Input {
            interval,
            given: noise(rng, len),
            before: noise(rng, out),
        };
        self.refused(&input, 22, class)
    }

    /// Both calls refuse the input with a number and change no byte.
    fn refused(&mut self, input: &Input, number: u32, class: &str) -> Result<(), String> {
        for way in [Way::To, Way::From] {
            let out = self.answered(way, input, number)?;
            if out != input.before {
                return Err(format!("{}: {number}, changed", way.name()));
            }
            let tally = &mut self.tally;
            tally.add(&format!("{}, {class}", way.name()));
            tally.add_if(
                !out.is_empty(),
                &format!("{}, refused, output unchanged", way.name()),
            );
        }
        Ok(())
    }

    /// The output of one call, answered with this number by all builds alike.
    fn answered(&mut self, way: Way, input: &Input, number: u32) -> Result<Vec<u8>, String> {
        let call = |side: Strips| {
            let mut out = input.before.clone();
            let code = way.of(side)(input.interval, &input.given, &mut out);
            (code, out)
        };
        let (code, out) = call(SECOND);
        if code != number {
            return Err(format!(
                "{}: {code}, not {number}; {}",
                way.name(),
                input.print()
            ));
        }
        let other = self.other.map(|other| ("other", other));
        for (name, side) in [("restated", RESTATED)].into_iter().chain(other) {
            let (others_code, others) = call(side);
            let at = (0..out.len()).find(|&i| out[i] != others[i]);
            if code != others_code || at.is_some() {
                return Err(format!(
                    "{}: {code}, {name} {others_code}, first other byte {at:?}; {}",
                    way.name(),
                    input.print()
                ));
            }
        }
        Ok(out)
    }
}

impl Input {
    /// The input in full where it is short; the seed and the try give the others.
    fn print(&self) -> String {
        let bytes = if self.given.len() <= 4096 {
            hex(&self.given)
        } else {
            "(long)".to_string()
        };
        format!(
            "interval {}, output of {} bytes, {} bytes given: {bytes}",
            self.interval,
            self.before.len(),
            self.given.len()
        )
    }
}

fn day_bytes(interval: u32) -> usize {
    6 * 1440 / interval as usize
}

/// Any bytes, bytes all alike, or records as a file has them.
fn content(rng: &mut Rng, len: usize) -> Vec<u8> {
    match rng.below(4) {
        0 => vec![rng.pick(&[0, 1, 0x7F, 0x80, 0xFF]); len],
        1 => (0..len / 6)
            .flat_map(|_| {
                let value = rng.pick(&[0, 1, 250, 256, 65_536, u32::MAX]).to_le_bytes();
                [value[0], value[1], value[2], value[3], b'A', 0]
            })
            .collect(),
        _ => noise(rng, len),
    }
}

/// W13's sentences again: one record, one position at a time, in numbers that don't wrap.
const RESTATED: Strips = Strips {
    to: restated_to,
    from: restated_from,
};

const WORDS: u64 = 1 << 32;

fn restated_refusal(interval: u32, given: &[u8], out: &[u8]) -> u32 {
    let slots_a_day = match interval {
        5 => 288,
        15 => 96,
        30 => 48,
        _ => return 1,
    };
    let fits = (1..=400).any(|days| 6 * slots_a_day * days == given.len());
    if fits && out.len() == given.len() {
        0
    } else {
        22
    }
}

fn restated_to(interval: u32, table: &[u8], out: &mut [u8]) -> u32 {
    let refusal = restated_refusal(interval, table, out);
    if refusal != 0 {
        return refusal;
    }
    let records: Vec<[u8; 6]> = table.as_chunks::<6>().0.to_vec();
    let value = |r: &[u8; 6]| u64::from(u32::from_le_bytes([r[0], r[1], r[2], r[3]]));
    let first_day = vec![[0; 6]; 1440 / interval as usize];
    let earlier = first_day.iter().chain(&records);
    let differences: Vec<[u8; 6]> = records
        .iter()
        .zip(earlier)
        .map(|(record, earlier)| {
            let difference = (WORDS + value(record) - value(earlier)) % WORDS;
            let word = narrowed::<u32>(difference).to_le_bytes();
            [word[0], word[1], word[2], word[3], record[4], record[5]]
        })
        .collect();
    // All first bytes, all second bytes and so on.
    let strips = (0..6).flat_map(|k| differences.iter().map(move |record| record[k]));
    out.iter_mut().zip(strips).for_each(|(to, byte)| *to = byte);
    0
}

fn restated_from(interval: u32, strips: &[u8], out: &mut [u8]) -> u32 {
    let refusal = restated_refusal(interval, strips, out);
    if refusal != 0 {
        return refusal;
    }
    let slots = strips.len() / 6;
    let slots_a_day = 1440 / interval as usize;
    for position in 0..slots_a_day {
        let mut sum = 0;
        for slot in (position..slots).step_by(slots_a_day) {
            let byte = |k: usize| strips[k * slots + slot];
            sum += u64::from(u32::from_le_bytes([byte(0), byte(1), byte(2), byte(3)]));
            let word = narrowed::<u32>(sum % WORDS).to_le_bytes();
            out[6 * slot..6 * slot + 4].copy_from_slice(&word);
            out[6 * slot + 4] = byte(4);
            out[6 * slot + 5] = byte(5);
        }
    }
    0
}

#[cfg(test)]
mod tests {
    use super::*;

    fn run(other: Strips) -> Result<Tally, String> {
        let mut tally = Tally::new(CLASSES);
        // The largest tables are left to the program.
        for index in (0..400).filter(|index| ![3, 7, 11].contains(&(index % 24))) {
            one(&mut Rng::new(1, index), index, Some(other), &mut tally)?;
        }
        Ok(tally)
    }

    #[test]
    fn every_class_but_the_largest_occurs() {
        let tally = run(SECOND).expect("no difference");
        let missing = tally.missing();
        assert_eq!(missing.len(), 6, "{missing:?}");
        assert!(missing.iter().all(|name| name.ends_with("D 400")));
    }

    #[test]
    fn meddled_builds_are_found() {
        let meddled: [Convert; 4] = [
            // Changes nothing.
            |interval, given, out| {
                out.copy_from_slice(&given[..out.len()]);
                restated_refusal(interval, given, out)
            },
            // Takes 401 days.
            |interval, given, out| match given.len() == 401 * day_bytes(interval.clamp(5, 30)) {
                true => 0,
                false => strips::to_strips_code(interval, given, out),
            },
            // 22 before 1.
            |interval, given, out| match given.len() == out.len() {
                true => strips::to_strips_code(interval, given, out),
                false => 22,
            },
            // Writes on refusal.
            |interval, given, out| {
                let code = strips::to_strips_code(interval, given, out);
                if let (22, Some(byte)) = (code, out.first_mut()) {
                    *byte ^= 1;
                }
                code
            },
        ];
        for to in meddled {
            assert!(run(Strips { to, ..SECOND }).is_err());
        }
        let from: Convert = |interval, given, out| {
            let code = strips::from_strips_code(interval, given, out);
            // The last record is left as it was.
            if code == 0 {
                let len = out.len();
                out[len - 6..].fill(0xEE);
            }
            code
        };
        assert!(run(Strips { from, ..SECOND }).is_err());
    }
}
