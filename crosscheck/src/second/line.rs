//! 01, The published file: the one line a program writes of a file.

use crate::number::narrowed;
use crate::second::head::date;
use crate::second::reader;
use crate::second::refusal;

/// The longest file the program takes.
pub const MOST_BYTES: usize = 65_536;

pub fn line(file: &[u8]) -> String {
    if file.len() > MOST_BYTES {
        return "too long".to_string();
    }
    of_any_length(file).unwrap_or_else(|number| format!("refused {number}"))
}

/// First day, D, L, the three counts and the sum, of a file of any length; or the refusal.
pub fn of_any_length(file: &[u8]) -> Result<String, u8> {
    let f = reader::read(file)?;
    let (year, month, day) = date(narrowed(f.first_day));
    Ok(format!(
        "{year:04}-{month:02}-{day:02} {} {} {} {} {} {}",
        f.days, f.interval, f.actual, f.substituted, f.none, f.sum
    ))
}

/// The line into the first bytes of `out`: its length, or 8 or 9, and then 7.
pub fn line_code(file: &[u8], out: &mut [u8]) -> u64 {
    let line = match of_any_length(file) {
        Ok(line) => line,
        Err(number) => return number.into(),
    };
    let Some(written) = out.get_mut(..line.len()) else {
        return refusal::BUFFER.into();
    };
    written.copy_from_slice(line.as_bytes());
    line.len() as u64
}
