//! Compares the conversions of packed decimal, W9, with a restatement and another build.

use crate::compare::rng::Rng;
use crate::second::dial;
use crate::second::head::DIAL;
use crate::tries::{Tally, hex, noise};

/// The two conversions of one build, as the chargers' host calls them.
#[derive(Clone, Copy)]
pub struct Dials {
    pub pack: fn(u32, &mut [u8]) -> u32,
    pub unpack: fn(&[u8]) -> u32,
}

pub const SECOND: Dials = Dials {
    pack: dial::pack_code,
    unpack: dial::unpack_code,
};

pub const CLASSES: &[&str] = &[
    "pack of 0 bytes",
    "pack of 1 bytes",
    "pack of 2 bytes",
    "pack of 3 bytes",
    "pack of 4 bytes",
    "pack of 5 bytes",
    "pack of 6 bytes",
    "pack of 7 bytes",
    "pack of 8 bytes",
    "pack of 9 bytes",
    "unpack of 0 bytes",
    "unpack of 1 bytes",
    "unpack of 2 bytes",
    "unpack of 3 bytes",
    "unpack of 4 bytes",
    "unpack of 5 bytes",
    "unpack of 6 bytes",
    "unpack of 7 bytes",
    "unpack of 8 bytes",
    "unpack of 9 bytes",
    "every byte value in place 0",
    "every byte value in place 1",
    "every byte value in place 2",
    "every byte value in place 3",
    "pack reading 0",
    "pack reading 99,999,999",
    "pack reading 100,000,000",
    "pack reading 4,294,967,295",
    "pack random reading",
    "pack refused 2",
    "pack refused 2, 6 due too",
    "pack refused 6",
    "pack refused, buffer unchanged",
    "unpack refused 2",
    "unpack refused 2, 16 due too",
    "unpack refused 16",
    "unpack refused 16, upper half",
    "unpack refused 16, lower half",
    "reading to bytes and back",
    "bytes to reading and back",
];

/// One try: which kind it is goes by its number.
pub fn one(
    rng: &mut Rng,
    index: u64,
    other: Option<Dials>,
    tally: &mut Tally,
) -> Result<(), String> {
    let mut check = Check { other, tally };
    match index % 4 {
        0 => check.sweep(rng),
        1 => check.lengths(rng),
        2 => check.readings(rng),
        _ => check.bytes(rng),
    }
}

struct Check<'a> {
    other: Option<Dials>,
    tally: &'a mut Tally,
}

impl Check<'_> {
    /// Every byte value in every place of one packed reading.
    fn sweep(&mut self, rng: &mut Rng) -> Result<(), String> {
        let bytes = packed(rng.word() % DIAL);
        for place in 0..bytes.len() {
            for value in 0..=255 {
                let mut bytes = bytes;
                bytes[place] = value;
                self.unpack(&bytes)?;
            }
            self.tally
                .add(&format!("every byte value in place {place}"));
        }
        Ok(())
    }

    /// Both calls with 0 to 9 bytes, with and without another refusal due.
    fn lengths(&mut self, rng: &mut Rng) -> Result<(), String> {
        for len in 0..=9 {
            let reading = any_reading(rng);
            self.pack(reading, &noise(rng, len))?;
            self.pack(DIAL, &noise(rng, len))?;
            self.unpack(&noise(rng, len))?;
            self.unpack(&vec![0x45; len])?;
        }
        Ok(())
    }

    fn readings(&mut self, rng: &mut Rng) -> Result<(), String> {
        for _ in 0..20 {
            let reading = any_reading(rng);
            self.pack(reading, &noise(rng, dial::DIAL_BYTES))?;
        }
        Ok(())
    }

    /// Four bytes, mostly of digits.
    fn bytes(&mut self, rng: &mut Rng) -> Result<(), String> {
        for _ in 0..20 {
            let mut bytes = packed(rng.word() % DIAL);
            let place = rng.below(bytes.len());
            if rng.one_in(2) {
                bytes[place] = rng.byte();
            }
            self.unpack(&bytes)?;
        }
        Ok(())
    }

    /// One packing into bytes that hold `before`.
    fn pack(&mut self, reading: u32, before: &[u8]) -> Result<(), String> {
        let mut bytes = before.to_vec();
        let code = (SECOND.pack)(reading, &mut bytes);
        for (name, side) in self.sides() {
            let mut others = before.to_vec();
            let others_code = (side.pack)(reading, &mut others);
            if (code, &bytes) != (others_code, &others) {
                return Err(format!(
                    "pack {reading} into {}: {code}, {}; {name} {others_code}, {}",
                    hex(before),
                    hex(&bytes),
                    hex(&others)
                ));
            }
        }
        if code != 0 && bytes != before {
            return Err(format!("pack {reading} changed {}", hex(before)));
        }
        self.count_pack(reading, before.len(), code);
        if code == 0 {
            self.back(reading, &bytes)?;
        }
        Ok(())
    }

    fn back(&mut self, reading: u32, bytes: &[u8]) -> Result<(), String> {
        let back = (SECOND.unpack)(bytes);
        if back != reading {
            return Err(format!("{reading} is {}, back {back}", hex(bytes)));
        }
        self.tally.add("reading to bytes and back");
        Ok(())
    }

    fn unpack(&mut self, bytes: &[u8]) -> Result<(), String> {
        let code = (SECOND.unpack)(bytes);
        for (name, side) in self.sides() {
            let others_code = (side.unpack)(bytes);
            if code != others_code {
                return Err(format!(
                    "unpack {}: {code}, {name} {others_code}",
                    hex(bytes)
                ));
            }
        }
        self.count_unpack(bytes, code);
        if code < DIAL {
            // Every reading has one form.
            if packed(code)[..] != *bytes {
                return Err(format!("{} is {code}, of another form", hex(bytes)));
            }
            self.tally.add("bytes to reading and back");
        }
        Ok(())
    }

    fn sides(&self) -> Vec<(&'static str, Dials)> {
        let restated = [("restated", RESTATED)];
        let other = self.other.map(|other| ("other", other));
        restated.into_iter().chain(other).collect()
    }

    fn count_pack(&mut self, reading: u32, len: usize, code: u32) {
        let tally = &mut self.tally;
        tally.add(&format!("pack of {len} bytes"));
        tally.add(match reading {
            0 => "pack reading 0",
            99_999_999 => "pack reading 99,999,999",
            100_000_000 => "pack reading 100,000,000",
            u32::MAX => "pack reading 4,294,967,295",
            _ => "pack random reading",
        });
        tally.add_if(code == 2, "pack refused 2");
        tally.add_if(code == 2 && reading >= DIAL, "pack refused 2, 6 due too");
        tally.add_if(code == 6, "pack refused 6");
        tally.add_if(code != 0 && len > 0, "pack refused, buffer unchanged");
    }

    fn count_unpack(&mut self, bytes: &[u8], code: u32) {
        let upper = bytes.iter().any(|byte| byte >> 4 > 9);
        let lower = bytes.iter().any(|byte| byte & 15 > 9);
        let (length, digit) = (code == DIAL + 2, code == DIAL + 16);
        let tally = &mut self.tally;
        tally.add(&format!("unpack of {} bytes", bytes.len()));
        tally.add_if(length, "unpack refused 2");
        tally.add_if(length && (upper || lower), "unpack refused 2, 16 due too");
        tally.add_if(digit, "unpack refused 16");
        tally.add_if(digit && !lower, "unpack refused 16, upper half");
        tally.add_if(digit && !upper, "unpack refused 16, lower half");
    }
}

fn any_reading(rng: &mut Rng) -> u32 {
    let (any, random) = (rng.word(), rng.word() % DIAL);
    rng.pick(&[0, DIAL - 1, DIAL, u32::MAX, any, random, random, random])
}

fn packed(reading: u32) -> [u8; dial::DIAL_BYTES] {
    let mut bytes = [0; dial::DIAL_BYTES];
    (SECOND.pack)(reading, &mut bytes);
    bytes
}

/// W9's sentence again: the reading's decimal digits, taken for hexadecimal ones.
const RESTATED: Dials = Dials {
    pack: restated_pack,
    unpack: restated_unpack,
};

fn restated_pack(reading: u32, bytes: &mut [u8]) -> u32 {
    if bytes.len() != 4 {
        return 2;
    }
    let digits = reading.to_string();
    if digits.len() > 8 {
        return 6;
    }
    let word = u32::from_str_radix(&digits, 16).expect("eight digits at most");
    bytes.copy_from_slice(&word.to_le_bytes());
    0
}

fn restated_unpack(bytes: &[u8]) -> u32 {
    let Ok(word) = bytes.try_into().map(u32::from_le_bytes) else {
        return 100_000_002;
    };
    format!("{word:x}").parse().unwrap_or(100_000_016)
}

/// All readings there and back, each form being the one before it with 1 added.
pub fn all(other: Option<Dials>) -> Result<(), String> {
    let sides = [Some(SECOND), other];
    let mut form = [0; 4];
    for reading in 0..DIAL {
        for side in sides.into_iter().flatten() {
            let mut bytes = [0xEE; 4];
            let code = (side.pack)(reading, &mut bytes);
            let back = (side.unpack)(&form);
            if code != 0 || bytes != form || back != reading {
                return Err(format!(
                    "pack {reading}: {code}, {}, unpack {}: {back}",
                    hex(&bytes),
                    hex(&form)
                ));
            }
        }
        add_one(&mut form);
    }
    Ok(())
}

/// The dial's next form, digit by digit.
fn add_one(form: &mut [u8; 4]) {
    for byte in form {
        if *byte != 0x99 {
            *byte += if *byte & 15 == 9 { 7 } else { 1 };
            return;
        }
        *byte = 0;
    }
}

#[cfg(test)]
mod tests {
    use super::*;

    fn run(other: Dials) -> Result<Tally, String> {
        let mut tally = Tally::new(CLASSES);
        for index in 0..400 {
            one(&mut Rng::new(1, index), index, Some(other), &mut tally)?;
        }
        Ok(tally)
    }

    #[test]
    fn every_class_occurs() {
        let tally = run(SECOND).expect("no difference");
        assert_eq!(tally.missing(), Vec::<&str>::new());
    }

    const MEDDLED_PACK: [fn(u32, &mut [u8]) -> u32; 4] = [
        |_, _| 6,
        // Takes one reading too many.
        |reading, bytes| match reading {
            DIAL => 0,
            _ => dial::pack_code(reading, bytes),
        },
        // 6 before 2.
        |reading, bytes| match reading {
            DIAL.. => 6,
            _ => dial::pack_code(reading, bytes),
        },
        // Writes on refusal.
        |reading, bytes| {
            let code = dial::pack_code(reading, bytes);
            if code == 6 {
                bytes.fill(0);
            }
            code
        },
    ];

    const MEDDLED_UNPACK: [fn(&[u8]) -> u32; 3] = [
        // A half byte above 9 counts with its value.
        |bytes| match bytes {
            [a, b, c, d] => [d, c, b, a].into_iter().fold(0, |high, &byte| {
                high * 100 + u32::from(byte >> 4) * 10 + u32::from(byte & 15)
            }),
            _ => 100_000_002,
        },
        // 16 before 2.
        |bytes| match bytes.iter().any(|byte| byte >> 4 > 9) {
            true => 100_000_016,
            false => dial::unpack_code(bytes),
        },
        // Highest byte first.
        |bytes| {
            let turned: Vec<u8> = bytes.iter().rev().copied().collect();
            dial::unpack_code(&turned)
        },
    ];

    #[test]
    fn meddled_builds_are_found() {
        for pack in MEDDLED_PACK {
            assert!(run(Dials { pack, ..SECOND }).is_err());
        }
        for unpack in MEDDLED_UNPACK {
            assert!(run(Dials { unpack, ..SECOND }).is_err());
        }
    }

    #[test]
    fn forms_are_counted_up() {
        let mut form = [0; 4];
        for reading in 0..1_000_000 {
            assert_eq!(packed(reading), form);
            add_one(&mut form);
        }
        let mut last = [0x99; 4];
        add_one(&mut last);
        assert_eq!(last, [0; 4]);
    }
}
