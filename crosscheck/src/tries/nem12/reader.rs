//! A reader of NEM12 by itself: it knows AEMO's records and nothing of what wrote them.
//!
//! It takes one meter's export of the records 100, 200, 300, 400 and 900 with values in
//! kWh, and is strict: CR LF, field counts, three decimals, no leading zeros, and behind
//! a day that varies 400s that cover it in order.

use crate::number::narrowed;

#[derive(Clone, Debug, PartialEq, Eq)]
pub struct Export {
    /// DateTime, 12 digits.
    pub created: String,
    pub from: String,
    pub to: String,
    pub meter: Meter,
    pub days: Vec<Day>,
}

/// The fields of the 200, without the unit, which is kWh.
#[derive(Clone, Debug, PartialEq, Eq)]
pub struct Meter {
    pub identifier: String,
    pub configuration: String,
    pub register_id: String,
    pub suffix: String,
    pub stream: String,
    pub serial: String,
    /// Minutes.
    pub interval: usize,
    pub next_read: String,
}

/// A 300 with its 400s.
#[derive(Clone, Debug, PartialEq, Eq)]
pub struct Day {
    /// Days since 2000-01-01.
    pub number: i64,
    /// Wh.
    pub values: Vec<u64>,
    /// As the 300 has it.
    pub mark: Mark,
    /// UpdateDateTime, 14 digits.
    pub updated: String,
    /// MSATSLoadDateTime.
    pub loaded: String,
    /// The 400s; none behind a day whose quality doesn't vary.
    pub runs: Vec<Run>,
}

/// A 400: interval `first` to interval `last`, counted from 1.
#[derive(Clone, Debug, PartialEq, Eq)]
pub struct Run {
    pub first: usize,
    pub last: usize,
    pub mark: Mark,
}

/// QualityMethod, ReasonCode and ReasonDescription.
#[derive(Clone, Debug, PartialEq, Eq)]
pub struct Mark {
    pub letter: char,
    /// Of S and F.
    pub method: Option<u8>,
    pub reason: String,
    pub description: String,
}

impl Day {
    /// The mark of each slot.
    pub fn marks(&self) -> Vec<&Mark> {
        if self.mark.letter != 'V' {
            return vec![&self.mark; self.values.len()];
        }
        let runs = self.runs.iter();
        runs.flat_map(|run| vec![&run.mark; run.last + 1 - run.first])
            .collect()
    }
}

/// The export, or what is wrong with which record, counted from 1.
pub fn read(bytes: &[u8]) -> Result<Export, String> {
    let text = str::from_utf8(bytes).map_err(|_| "bytes that are no text".to_string())?;
    let text = text.strip_suffix("\r\n").ok_or("no CR LF at the end")?;
    let mut reader = Reader::default();
    for (at, line) in text.split("\r\n").enumerate() {
        reader
            .record(line)
            .map_err(|what| format!("record {}: {what}", at + 1))?;
    }
    reader.end()
}

#[derive(Default)]
struct Reader {
    /// DateTime, FromParticipant and ToParticipant.
    header: Option<[String; 3]>,
    meter: Option<Meter>,
    days: Vec<Day>,
    ended: bool,
}

impl Reader {
    fn record(&mut self, line: &str) -> Result<(), String> {
        require(!self.ended, "behind the 900")?;
        let printed = line.bytes().all(|byte| (0x20..=0x7E).contains(&byte));
        require(printed, "a byte outside 0x20 to 0x7E")?;
        let fields: Vec<&str> = line.split(',').collect();
        match (fields[0], &self.header, &self.meter) {
            ("100", None, None) => self.header = Some(header(&fields)?),
            ("200", Some(_), None) => self.meter = Some(meter(&fields)?),
            ("300", _, Some(meter)) => {
                let day = day(&fields, 1440 / meter.interval)?;
                self.day_ends()?;
                let follows = self.days.last().is_none_or(|last| last.number < day.number);
                require(follows, "a date not after the one before")?;
                self.days.push(day);
            }
            ("400", ..) => {
                let run = run(&fields)?;
                let day = self.days.last_mut().ok_or("a 400 without a 300")?;
                require(day.mark.letter == 'V', "a 400 of a day that doesn't vary")?;
                let before = day.runs.last().map_or(0, |run| run.last);
                require(run.first == before + 1, "a hole or an overlap")?;
                require(run.last >= run.first, "an end before its start")?;
                require(run.last <= day.values.len(), "an end after the day's")?;
                day.runs.push(run);
            }
            ("900", ..) => {
                counted(&fields, 1)?;
                self.day_ends()?;
                require(!self.days.is_empty(), "no day")?;
                self.ended = true;
            }
            _ => return Err(format!("{:?} in this place", fields[0])),
        }
        Ok(())
    }

    /// The 400s of the last day are whole.
    fn day_ends(&self) -> Result<(), String> {
        let Some(day) = self.days.last() else {
            return Ok(());
        };
        let covered = day.runs.last().map_or(0, |run| run.last);
        let whole = day.mark.letter != 'V' || covered == day.values.len();
        require(whole, "the day before it isn't covered by its 400s")
    }

    fn end(self) -> Result<Export, String> {
        let (Some([created, from, to]), Some(meter), true) = (self.header, self.meter, self.ended)
        else {
            return Err("no 900 at the end".to_string());
        };
        Ok(Export {
            created,
            from,
            to,
            meter,
            days: self.days,
        })
    }
}

fn require(holds: bool, what: &str) -> Result<(), String> {
    if holds { Ok(()) } else { Err(what.to_string()) }
}

fn counted(fields: &[&str], many: usize) -> Result<(), String> {
    if fields.len() == many {
        return Ok(());
    }
    Err(format!("{} fields, not {many}", fields.len()))
}

fn digits(field: &str, many: usize) -> Result<String, String> {
    if field.len() == many && field.bytes().all(|byte| byte.is_ascii_digit()) {
        return Ok(field.to_string());
    }
    Err(format!("{field:?} isn't {many} digits"))
}

/// A whole number without leading zeros.
fn whole(field: &str) -> Result<u64, String> {
    let leading = field.len() > 1 && field.starts_with('0');
    let plain = (1..=15).contains(&field.len()) && digits(field, field.len()).is_ok();
    if leading || !plain {
        return Err(format!("{field:?} is no number"));
    }
    field.parse().map_err(|_| format!("{field:?} is no number"))
}

fn header(fields: &[&str]) -> Result<[String; 3], String> {
    counted(fields, 5)?;
    require(fields[1] == "NEM12", "not NEM12")?;
    Ok([
        digits(fields[2], 12)?,
        fields[3].to_string(),
        fields[4].to_string(),
    ])
}

fn meter(fields: &[&str]) -> Result<Meter, String> {
    counted(fields, 10)?;
    require(fields[1].len() == 10, "an NMI that isn't ten characters")?;
    require(fields[7] == "kWh", "a unit other than kWh")?;
    let interval = match fields[8] {
        "5" => 5,
        "15" => 15,
        "30" => 30,
        _ => return Err("an interval length other than 5, 15 and 30".to_string()),
    };
    Ok(Meter {
        identifier: fields[1].to_string(),
        configuration: fields[2].to_string(),
        register_id: fields[3].to_string(),
        suffix: fields[4].to_string(),
        stream: fields[5].to_string(),
        serial: fields[6].to_string(),
        interval,
        next_read: fields[9].to_string(),
    })
}

fn day(fields: &[&str], many: usize) -> Result<Day, String> {
    counted(fields, 2 + many + 5)?;
    let (values, rest) = fields[2..].split_at(many);
    let values: Result<Vec<u64>, String> = values.iter().map(|value| watt_hours(value)).collect();
    Ok(Day {
        number: day_number(fields[1])?,
        values: values?,
        mark: mark(&rest[..3])?,
        updated: digits(rest[3], 14)?,
        loaded: rest[4].to_string(),
        runs: Vec::new(),
    })
}

fn run(fields: &[&str]) -> Result<Run, String> {
    counted(fields, 6)?;
    let mark = mark(&fields[3..])?;
    require(mark.letter != 'V', "a V in a 400")?;
    Ok(Run {
        first: narrowed(whole(fields[1])?),
        last: narrowed(whole(fields[2])?),
        mark,
    })
}

/// kWh with three decimals, as Wh.
fn watt_hours(field: &str) -> Result<u64, String> {
    let parts = field.split_once('.');
    let (kilo, rest) = parts.ok_or_else(|| format!("{field:?} has no decimals"))?;
    let rest: u64 = digits(rest, 3)?.parse().unwrap_or(0);
    Ok(1000 * whole(kilo)? + rest)
}

fn mark(fields: &[&str]) -> Result<Mark, String> {
    let quality = fields[0];
    let (letter, method) = match quality.split_at_checked(1) {
        Some((letter @ ("A" | "N" | "V"), "")) => (letter, None),
        Some((letter @ ("S" | "F"), method)) => {
            let method = digits(method, 2)?.parse().ok();
            (letter, method)
        }
        _ => return Err(format!("{quality:?} is no quality")),
    };
    Ok(Mark {
        letter: letter.chars().next().unwrap_or_default(),
        method,
        reason: fields[1].to_string(),
        description: fields[2].to_string(),
    })
}

/// A date of eight digits as days since 2000-01-01, by years that begin in March.
fn day_number(field: &str) -> Result<i64, String> {
    let all: i64 = digits(field, 8)?.parse().unwrap_or(0);
    let (year, month, day) = (all / 10_000, all / 100 % 100, all % 100);
    let leap = year % 4 == 0 && (year % 100 != 0 || year % 400 == 0);
    let most = match month {
        2 if leap => 29,
        2 => 28,
        4 | 6 | 9 | 11 => 30,
        1 | 3 | 5 | 7 | 8 | 10 | 12 => 31,
        _ => 0,
    };
    if !(1..=most).contains(&day) {
        return Err(format!("{field:?} is no date"));
    }
    let from_march = |year: i64, month: i64, day: i64| {
        let (year, month) = if month > 2 {
            (year, month - 3)
        } else {
            (year - 1, month + 9)
        };
        365 * year + year.div_euclid(4) - year.div_euclid(100)
            + year.div_euclid(400)
            + (153 * month + 2) / 5
            + day
    };
    Ok(from_march(year, month, day) - from_march(2000, 1, 1))
}
