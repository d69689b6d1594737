//! W8's sentences again: one text at a time, slots alike where their written texts are.

use super::files::code_text;
use super::given::LETTERS;
use crate::compare::acceptance;
use crate::number::narrowed;
use crate::second::market::{Codes, Texts};

pub fn restated(file: &[u8], texts: &Texts, codes: Codes, out: &mut [u8]) -> u64 {
    let export = match restated_export(file, texts, codes) {
        Ok(export) => export,
        Err(number) => return number,
    };
    if out.len() < export.len() {
        return 7;
    }
    for (place, byte) in export.bytes().enumerate() {
        out[place] = byte;
    }
    export.len() as u64
}

pub fn restated_export(file: &[u8], texts: &Texts, codes: Codes) -> Result<String, u64> {
    let figures = acceptance::read(file)?;
    if texts.identifier.len() != 10 || texts.identifier.iter().any(|byte| !LETTERS.contains(byte)) {
        return Err(14);
    }
    let (created, reason) = (text(texts.created)?, text(texts.reason)?);
    if created.len() != 14 || created.chars().any(|c| !c.is_ascii_digit()) {
        return Err(15);
    }
    if codes.into_iter().any(|code| code >= 100) {
        return Err(15);
    }
    let mut lines = front(texts, &created, figures.interval)?;
    let slots_a_day = 1440 / narrowed::<usize>(figures.interval);
    let mut date = Date::of(figures.first_day);
    for day in file.chunks(6 * slots_a_day).take(narrowed(figures.days)) {
        let day = Day {
            records: day,
            codes,
            reason: &reason,
        };
        lines.push(format!("300,{},{},{created},", date.text(), day.whole()));
        lines.extend(day.runs());
        date.next();
    }
    lines.push("900".to_string());
    lines.push(String::new());
    Ok(lines.join("\r\n"))
}

fn text(bytes: &[u8]) -> Result<String, u64> {
    let wrong = bytes
        .iter()
        .any(|&byte| !(32..=126).contains(&byte) || byte == 44);
    if wrong {
        return Err(15);
    }
    Ok(bytes.iter().map(|&byte| byte as char).collect())
}

/// The 100 and the 200.
fn front(texts: &Texts, created: &str, interval: u64) -> Result<Vec<String>, u64> {
    Ok(vec![
        format!(
            "100,NEM12,{},{},{}",
            &created[0..12],
            text(texts.from)?,
            text(texts.to)?
        ),
        format!(
            "200,{},{},{},{},{},{},kWh,{interval},{}",
            text(texts.identifier)?,
            text(texts.configuration)?,
            text(texts.register_id)?,
            text(texts.suffix)?,
            text(texts.stream)?,
            text(texts.serial)?,
            text(texts.next_read)?
        ),
    ])
}

/// The slots of a day.
struct Day<'a> {
    records: &'a [u8],
    codes: Codes,
    reason: &'a str,
}

impl Day<'_> {
    /// Letter and method code of each slot, as written.
    fn marks(&self) -> Vec<String> {
        let mark = |record: &[u8]| {
            let code = code_text(record[5], self.codes);
            format!("{}{code}", record[4] as char)
        };
        self.records.chunks(6).map(mark).collect()
    }

    fn reasoned(&self, mark: &str) -> String {
        let reason = if mark.len() > 1 { self.reason } else { "" };
        format!("{mark},{reason},")
    }

    /// The values, and the mark of all slots or a V.
    fn whole(&self) -> String {
        let values = self.records.chunks(6).map(kilowatt_hours);
        let values: Vec<String> = values.collect();
        let marks = self.marks();
        let alike = marks.iter().all(|mark| *mark == marks[0]);
        let mark = self.reasoned(if alike { &marks[0] } else { "V" });
        format!("{},{mark}", values.join(","))
    }

    /// A 400 for each run of slots alike; none where the whole day is.
    fn runs(&self) -> Vec<String> {
        let marks = self.marks();
        let begins = |at: &usize| *at == 0 || marks[*at - 1] != marks[*at];
        let firsts: Vec<usize> = (0..marks.len()).filter(begins).collect();
        if firsts.len() == 1 {
            return Vec::new();
        }
        let run = |first: usize| {
            let rest = marks[first..].iter();
            let length = rest.take_while(|mark| **mark == marks[first]).count();
            let mark = self.reasoned(&marks[first]);
            format!("400,{},{},{mark}", first + 1, first + length)
        };
        firsts.into_iter().map(run).collect()
    }
}

/// A value's digits, at least four of them, with a point before the last three.
fn kilowatt_hours(record: &[u8]) -> String {
    let value = (0..4).map(|k| u64::from(record[k]) << (8 * k)).sum::<u64>();
    let mut text = format!("{value:04}");
    text.insert(text.len() - 3, '.');
    text
}

/// A date that is walked to, day by day from 2000-01-01.
pub struct Date {
    pub year: u32,
    pub month: u32,
    pub day: u32,
}

impl Date {
    pub fn of(number: u64) -> Date {
        let mut date = Date {
            year: 2000,
            month: 1,
            day: 1,
        };
        (0..number).for_each(|_| date.next());
        date
    }

    pub fn next(&mut self) {
        let most = match self.month {
            // No year of 2000 to 2099 divides by 100 but 2000, a leap year.
            2 => 28 + u32::from(self.year.is_multiple_of(4)),
            4 | 6 | 9 | 11 => 30,
            _ => 31,
        };
        self.day += 1;
        if self.day > most {
            (self.day, self.month) = (1, self.month + 1);
        }
        if self.month > 12 {
            (self.month, self.year) = (1, self.year + 1);
        }
    }

    fn text(&self) -> String {
        format!("{}", 10_000 * self.year + 100 * self.month + self.day)
    }
}
