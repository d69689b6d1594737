//! An export of W8 read back by the reader of NEM12, and held against the file.

use crate::compare::acceptance;
use crate::second::market::{Codes, METHODS};
use crate::tries::nem12::reader::{self, Day, Export, Mark};

/// The export where dates, values, qualities and methods are those of the file, each
/// 400 is a longest run, and S and F alone have a reason, one for all; or what differs.
pub fn as_in_file(export: &[u8], file: &[u8], codes: Codes) -> Result<Export, String> {
    let figures =
        acceptance::read(file).map_err(|number| format!("the file is refused, {number}"))?;
    let export = reader::read(export)?;
    same("interval", export.meter.interval as u64, figures.interval)?;
    same("days", export.days.len() as u64, figures.days)?;
    let slots_a_day = 1440 / export.meter.interval;
    let (records, _) = file.as_chunks::<6>();
    let mut reason = None;
    for (at, day) in export.days.iter().enumerate() {
        let records = &records[at * slots_a_day..][..slots_a_day];
        let number = figures.first_day as i64 + at as i64;
        same("number of the day", day.number, number)
            .and_then(|()| slots(day, records, codes))
            .and_then(|()| longest(day))
            .and_then(|()| reasons(day, &mut reason))
            .map_err(|what| format!("day {at}: {what}"))?;
    }
    Ok(export)
}

fn same<T: PartialEq + std::fmt::Display>(what: &str, export: T, file: T) -> Result<(), String> {
    if export == file {
        return Ok(());
    }
    Err(format!(
        "{what}: {export} in the export, {file} in the file"
    ))
}

/// Value, letter and method code of each slot.
fn slots(day: &Day, records: &[[u8; 6]], codes: Codes) -> Result<(), String> {
    let marks = day.marks();
    same("slots", marks.len(), records.len())?;
    for (position, (mark, record)) in marks.into_iter().zip(records).enumerate() {
        let [a, b, c, d, letter, method] = *record;
        let value = u64::from(u32::from_le_bytes([a, b, c, d]));
        let code = METHODS.iter().zip(codes).find(|&(&of, _)| of == method);
        same("value", day.values[position], value)
            .and_then(|()| same("quality", mark.letter, letter.into()))
            .and_then(|()| {
                let coded = |code: Option<u32>| code.map_or("none".to_string(), |c| c.to_string());
                let file = code.map(|(_, code)| code);
                same(
                    "method code",
                    coded(mark.method.map(u32::from)),
                    coded(file),
                )
            })
            .map_err(|what| format!("position {position}: {what}"))?;
    }
    Ok(())
}

/// A day varies where it has two runs, and neighbouring runs differ.
fn longest(day: &Day) -> Result<(), String> {
    let kind = |mark: &Mark| (mark.letter, mark.method);
    let varies = day.mark.letter == 'V';
    if varies && day.runs.len() < 2 {
        return Err("a V though the day is alike".to_string());
    }
    let alike = |pair: &&[reader::Run]| kind(&pair[0].mark) == kind(&pair[1].mark);
    match day.runs.windows(2).find(alike) {
        Some(pair) => Err(format!(
            "a run ends at {} and goes on behind it",
            pair[0].last
        )),
        None => Ok(()),
    }
}

fn reasons(day: &Day, reason: &mut Option<String>) -> Result<(), String> {
    let runs = day.runs.iter().map(|run| &run.mark);
    for mark in [&day.mark].into_iter().chain(runs) {
        let own = if mark.method.is_some() {
            reason.get_or_insert_with(|| mark.reason.clone()).as_str()
        } else {
            ""
        };
        if mark.reason != own {
            return Err(format!(
                "reason {:?} of a {}, not {own:?}",
                mark.reason, mark.letter
            ));
        }
        if !mark.description.is_empty() || !day.loaded.is_empty() {
            return Err("a field that should be empty".to_string());
        }
    }
    Ok(())
}
