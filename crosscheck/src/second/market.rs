//! 02, W8: an accepted file as the market's NEM12.

use crate::number::narrowed;
use crate::second::file::SLOT_BYTES;
use crate::second::head;
use crate::second::reader::{self, Figures};
use crate::second::refusal;

/// The methods that have a code of the caller's, in the order of the codes.
pub const METHODS: [u8; 5] = [2, 3, 5, 18, 19];
/// The highest method code.
pub const MOST_CODE: u32 = 99;

/// The method codes of `METHODS`.
pub type Codes = [u32; 5];

/// What the caller supplies, in the order of the call.
#[derive(Clone, Copy, Debug, PartialEq, Eq)]
pub struct Texts<'a> {
    pub identifier: &'a [u8],
    pub from: &'a [u8],
    pub to: &'a [u8],
    pub configuration: &'a [u8],
    pub register_id: &'a [u8],
    pub suffix: &'a [u8],
    pub stream: &'a [u8],
    pub serial: &'a [u8],
    pub next_read: &'a [u8],
    pub reason: &'a [u8],
    pub created: &'a [u8],
}

impl Texts<'_> {
    fn identified(&self) -> bool {
        let known = |&byte: &u8| match byte {
            b'I' | b'O' => false,
            b'A'..=b'Z' | b'0'..=b'9' => true,
            _ => false,
        };
        self.identifier.len() == 10 && self.identifier.iter().all(known)
    }

    /// The header texts and the reason code, each fit to be a field.
    fn fields_hold(&self) -> bool {
        let fields = [
            self.from,
            self.to,
            self.configuration,
            self.register_id,
            self.suffix,
            self.stream,
            self.serial,
            self.next_read,
            self.reason,
        ];
        let fits = |&byte: &u8| (0x20..=0x7E).contains(&byte) && byte != b',';
        fields.concat().iter().all(fits)
    }

    fn dated(&self) -> bool {
        self.created.len() == 14 && self.created.iter().all(u8::is_ascii_digit)
    }
}

/// Writes the export to the first bytes of `out` and answers its length.
pub fn nem12(file: &[u8], texts: &Texts, codes: Codes, out: &mut [u8]) -> Result<usize, u8> {
    let figures = reader::read(file)?;
    if !texts.identified() {
        return Err(refusal::IDENTIFIER);
    }
    let coded = codes.iter().all(|&code| code <= MOST_CODE);
    if !texts.fields_hold() || !texts.dated() || !coded {
        return Err(refusal::TEXTS);
    }
    let mut writer = Writer {
        texts,
        codes,
        export: Vec::new(),
    };
    writer.export(file, &figures);
    let export = writer.export;
    let room = out.get_mut(..export.len()).ok_or(refusal::BUFFER)?;
    room.copy_from_slice(&export);
    Ok(export.len())
}

/// A slot's quality as it is written: the letter, and the code that S and F have.
#[derive(Clone, Copy, PartialEq, Eq)]
struct Written {
    letter: u8,
    code: Option<u32>,
}

struct Writer<'a> {
    texts: &'a Texts<'a>,
    codes: Codes,
    export: Vec<u8>,
}

impl<'a> Writer<'a> {
    fn export(&mut self, file: &[u8], figures: &Figures) {
        let t = self.texts;
        self.record(&[b"100", b"NEM12", &t.created[..12], t.from, t.to]);
        let interval = figures.interval.to_string();
        self.record(&[
            b"200",
            t.identifier,
            t.configuration,
            t.register_id,
            t.suffix,
            t.stream,
            t.serial,
            b"kWh",
            interval.as_bytes(),
            t.next_read,
        ]);
        let day_bytes = SLOT_BYTES * 1440 / narrowed::<usize>(figures.interval);
        for (day, number) in (0..narrowed(figures.days)).zip(narrowed(figures.first_day)..) {
            self.day(number, &file[day * day_bytes..][..day_bytes]);
        }
        self.record(&[b"900"]);
    }

    /// A 300, and behind it a 400 for each run where there is more than one.
    fn day(&mut self, number: u32, slots: &[u8]) {
        let (year, month, day) = head::date(number);
        self.export
            .extend(format!("300,{year}{month:02}{day:02}").bytes());
        let records = slots.as_chunks::<SLOT_BYTES>().0;
        for record in records {
            let value = u32::from_le_bytes([record[0], record[1], record[2], record[3]]);
            self.export
                .extend(format!(",{}.{:03}", value / 1000, value % 1000).bytes());
        }
        self.export.push(b',');
        let written: Vec<Written> = records.iter().map(|record| self.written(record)).collect();
        let runs: Vec<&[Written]> = written.chunk_by(|one, next| one == next).collect();
        let varies = Written {
            letter: b'V',
            code: None,
        };
        let whole = if runs.len() == 1 { written[0] } else { varies };
        let created = self.texts.created;
        let (quality, reason) = self.quality(whole);
        self.record(&[&quality, reason, b"", created, b""]);
        if runs.len() == 1 {
            return;
        }
        let mut before = 0;
        for run in runs {
            let (first, last) = ((before + 1).to_string(), before + run.len());
            let (quality, reason) = self.quality(run[0]);
            self.record(&[
                b"400",
                first.as_bytes(),
                last.to_string().as_bytes(),
                &quality,
                reason,
                b"",
            ]);
            before = last;
        }
    }

    fn written(&self, record: &[u8; SLOT_BYTES]) -> Written {
        let (letter, method) = (record[4], record[5]);
        // The methods of A and N are none of these.
        let place = METHODS.iter().position(|&other| other == method);
        Written {
            letter,
            code: place.map(|place| self.codes[place]),
        }
    }

    /// QualityMethod and ReasonCode.
    fn quality(&self, written: Written) -> (Vec<u8>, &'a [u8]) {
        let letter = written.letter as char;
        match written.code {
            Some(code) => (format!("{letter}{code:02}").into(), self.texts.reason),
            None => (letter.to_string().into(), b""),
        }
    }

    /// A record, or the fields that are left of one; and its end.
    fn record(&mut self, fields: &[&[u8]]) {
        self.export.extend(fields.join(&b','));
        self.export.extend(b"\r\n");
    }
}

/// As the other build's call answers: the length or the refusal.
pub fn nem12_code(file: &[u8], texts: &Texts, codes: Codes, out: &mut [u8]) -> u64 {
    match nem12(file, texts, codes, out) {
        Ok(length) => length as u64,
        Err(number) => number.into(),
    }
}
