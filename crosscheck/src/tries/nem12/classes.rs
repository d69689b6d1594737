//! What the exports are counted by.

use super::Question;
use super::files::code_text;
use super::given::CREATED;
use super::reader::Export;
use super::restated::Date;
use crate::compare::damage;
use crate::tries::Tally;

pub const CLASSES: &[&str] = &[
    "export of a published file",
    "export of a made file",
    "export of a damaged file",
    "export of a file of layout 1",
    "export of a file of layout 2",
    "export of a file of layout 3",
    "export with L 5",
    "export with L 15",
    "export with L 30",
    "export of D 1",
    "export of D 2 to 60",
    "export of D 400",
    "export of D 400 with L 5",
    "export over a 29 February",
    "export over a year's end",
    "export up to 2099-12-31",
    "read back as in the file",
    "day alike, A",
    "day alike, S",
    "day alike, F",
    "day alike, N",
    "day alike of (A,0) and (A,1)",
    "day alike of two S methods with one code",
    "day that varies",
    "V day, first and last slot in runs of one",
    "V day of two runs",
    "V day with a run for each slot",
    "run of (A,0) and (A,1)",
    "run of two S methods with one code",
    "S beside S with another code",
    "S beside F with one code",
    "A beside N",
    "run up to a day's end, alike on the next day",
    "scaled slots",
    "0 Wh",
    "5 Wh",
    "999 Wh",
    "1,000 Wh",
    "99,999,999 Wh",
    "4,294,967,295 Wh",
    "method code 0",
    "method code 9 written",
    "method code 10 written",
    "method code 99 written",
    "five equal codes",
    "all texts empty",
    "text of over 100 bytes",
    "text with 0x20",
    "text with 0x7E",
    "text with 0x2B or 0x2D",
    "creation time that is no time",
    "buffer of the exact length",
    "buffer longer, bytes after it unchanged",
    "buffer one too short, refused 7",
    "buffer of 0 bytes, refused 7",
    "buffer of another length, refused 7",
    "other file, equal export",
    "other file, other export",
    "refused 8",
    "refused 9",
    "refused 14",
    "refused 15",
    "refused 7",
    "8 before 14",
    "8 before 15",
    "8 before 7",
    "9 before 14",
    "9 before 15",
    "9 before 7",
    "14 before 15",
    "14 before 7",
    "15 before 7",
    "refused 8, unchanged",
    "refused 9, unchanged",
    "refused 14, unchanged",
    "refused 15, unchanged",
    "refused 7, unchanged",
    "14: no byte",
    "14: nine bytes",
    "14: eleven bytes",
    "14: I",
    "14: O",
    "14: small letter",
    "14: byte beside the letters or digits",
    "14: byte over 0x7E",
    "14: first byte",
    "14: last byte",
    "15: from",
    "15: to",
    "15: configuration",
    "15: register_id",
    "15: suffix",
    "15: stream",
    "15: serial",
    "15: next_read",
    "15: reason",
    "15: comma",
    "15: byte 0x1F",
    "15: byte 0x7F",
    "15: byte 0x0D or 0x0A",
    "15: byte 0",
    "15: byte over 0x7F",
    "15: creation time empty",
    "15: creation time of 13 digits",
    "15: creation time of 15 digits",
    "15: creation time with another byte",
    "15: code of method 2",
    "15: code of method 3",
    "15: code of method 5",
    "15: code of method 18",
    "15: code of method 19",
    "15: code 100",
    "15: code 255",
    "15: code 270",
];

/// An export that was read back, to be counted.
pub struct Count<'a> {
    pub question: &'a Question,
    pub back: &'a Export,
    pub tally: &'a mut Tally,
}

/// Letter and method of a slot.
type Kind = (u8, u8);

impl Count<'_> {
    pub fn all(&mut self) {
        self.sizes();
        self.dates();
        self.texts();
        self.values();
        let (records, _) = self.question.file.as_chunks::<6>();
        let n = 1440 / self.back.meter.interval;
        let kinds: Vec<Kind> = records[..n * self.back.days.len()]
            .iter()
            .map(|record| (record[4], record[5]))
            .collect();
        let codes = self.question.codes;
        let alike = |one: Kind, two: Kind| {
            one.0 == two.0 && code_text(one.1, codes) == code_text(two.1, codes)
        };
        let mut seen: Vec<&str> = Vec::new();
        for day in kinds.chunks(n) {
            day_classes(day, &alike, &mut seen);
        }
        for pair in kinds.windows(2) {
            pair_classes(pair[0], pair[1], &alike, &mut seen);
        }
        let on = (1..self.back.days.len()).any(|day| {
            let varies = |day: usize| self.back.days[day].mark.letter == 'V';
            varies(day - 1) && varies(day) && alike(kinds[day * n - 1], kinds[day * n])
        });
        let scaled = kinds.iter().any(|kind| matches!(kind.1, 18 | 19));
        self.tally
            .add_if(on, "run up to a day's end, alike on the next day");
        self.tally.add_if(scaled, "scaled slots");
        seen.sort_unstable();
        seen.dedup();
        seen.into_iter().for_each(|class| self.tally.add(class));
        self.codes(&kinds);
    }

    fn sizes(&mut self) {
        let (days, interval) = (self.back.days.len(), self.back.meter.interval);
        let layout = damage::layout(&self.question.file);
        let tally = &mut self.tally;
        tally.add(&format!("export of a file of layout {layout}"));
        tally.add(&format!("export with L {interval}"));
        tally.add_if(days == 1, "export of D 1");
        tally.add_if((2..=60).contains(&days), "export of D 2 to 60");
        tally.add_if(days == 400, "export of D 400");
        tally.add_if((days, interval) == (400, 5), "export of D 400 with L 5");
    }

    fn dates(&mut self) {
        let mut date = Date::of(self.back.days[0].number as u64);
        let (mut leap_day, mut year_end) = (false, false);
        for at in 0..self.back.days.len() {
            leap_day |= (date.month, date.day) == (2, 29);
            year_end |= at > 0 && (date.month, date.day) == (1, 1);
            date.next();
        }
        self.tally.add_if(leap_day, "export over a 29 February");
        self.tally.add_if(year_end, "export over a year's end");
        self.tally
            .add_if(date.year == 2100, "export up to 2099-12-31");
    }

    fn texts(&mut self) {
        let given = &self.question.given;
        let fields = given.fields();
        let holds = |bytes: &[u8]| fields.iter().flatten().any(|byte| bytes.contains(byte));
        let created = &given.0[CREATED];
        let tally = &mut self.tally;
        tally.add_if(fields.iter().all(Vec::is_empty), "all texts empty");
        let long = fields.iter().any(|text| text.len() > 100);
        tally.add_if(long, "text of over 100 bytes");
        tally.add_if(holds(b" "), "text with 0x20");
        tally.add_if(holds(b"~"), "text with 0x7E");
        tally.add_if(holds(b"+-"), "text with 0x2B or 0x2D");
        let no_time = created.starts_with(b"99") || created.starts_with(b"000000");
        tally.add_if(no_time, "creation time that is no time");
    }

    fn values(&mut self) {
        for (value, class) in [
            (0, "0 Wh"),
            (5, "5 Wh"),
            (999, "999 Wh"),
            (1000, "1,000 Wh"),
            (99_999_999, "99,999,999 Wh"),
            (u64::from(u32::MAX), "4,294,967,295 Wh"),
        ] {
            let mut days = self.back.days.iter();
            let seen = days.any(|day| day.values.contains(&value));
            self.tally.add_if(seen, class);
        }
    }

    fn codes(&mut self, kinds: &[Kind]) {
        let codes = self.question.codes;
        let written = |code: &str| kinds.iter().any(|kind| code_text(kind.1, codes) == code);
        let tally = &mut self.tally;
        tally.add_if(written("00"), "method code 0");
        tally.add_if(written("09"), "method code 9 written");
        tally.add_if(written("10"), "method code 10 written");
        tally.add_if(written("99"), "method code 99 written");
        tally.add_if(codes == [codes[0]; 5], "five equal codes");
    }
}

fn day_classes(day: &[Kind], alike: &impl Fn(Kind, Kind) -> bool, seen: &mut Vec<&str>) {
    let runs: Vec<&[Kind]> = day.chunk_by(|&one, &two| alike(one, two)).collect();
    let mixed = |run: &[Kind]| run.iter().any(|&kind| kind != run[0]);
    for run in &runs {
        match run[0].0 {
            b'A' if mixed(run) => seen.push("run of (A,0) and (A,1)"),
            b'S' if mixed(run) => seen.push("run of two S methods with one code"),
            _ => {}
        }
    }
    if runs.len() > 1 {
        seen.push("day that varies");
        let one = |run: Option<&&[Kind]>| run.is_some_and(|run| run.len() == 1);
        if one(runs.first()) && one(runs.last()) {
            seen.push("V day, first and last slot in runs of one");
        }
        if runs.len() == 2 {
            seen.push("V day of two runs");
        }
        if runs.len() == day.len() {
            seen.push("V day with a run for each slot");
        }
        return;
    }
    seen.push(match day[0].0 {
        b'A' => "day alike, A",
        b'S' => "day alike, S",
        b'F' => "day alike, F",
        _ => "day alike, N",
    });
    match day[0].0 {
        b'A' if mixed(day) => seen.push("day alike of (A,0) and (A,1)"),
        b'S' if mixed(day) => seen.push("day alike of two S methods with one code"),
        _ => {}
    }
}

fn pair_classes(one: Kind, two: Kind, alike: &impl Fn(Kind, Kind) -> bool, seen: &mut Vec<&str>) {
    let codes_alike = alike((b'S', one.1), (b'S', two.1));
    match (one.0, two.0) {
        (b'S', b'S') if !codes_alike => seen.push("S beside S with another code"),
        (b'S', b'F') | (b'F', b'S') if codes_alike => seen.push("S beside F with one code"),
        (b'A', b'N') | (b'N', b'A') => seen.push("A beside N"),
        _ => {}
    }
}
