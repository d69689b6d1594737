//! The calls of an export: accepted ones read back, and refused ones.

use super::back::as_in_file;
use super::classes::Count;
use super::files::Made;
use super::given::{CREATED, Given, NAMES, REASON, break_identifier, break_text, codes, texts};
use super::reader::Export;
use super::restated::{restated, restated_export};
use super::{Nem12, Question, SECOND};
use crate::compare::acceptance;
use crate::compare::rng::Rng;
use crate::tries::Tally;

/// How the output lies to the export's length.
#[derive(Clone, Copy)]
enum Room {
    Exact,
    Longer(usize),
    OneLess,
    Less(usize),
}

impl Room {
    /// The rooms in which an export of this length is tried; large ones in two alone.
    fn all(rng: &mut Rng, length: usize) -> Vec<Room> {
        let mut rooms = vec![Room::Exact, Room::OneLess];
        if length < 200_000 {
            rooms.push(Room::Longer(1 + rng.below(40)));
            let any = rng.below(length - 1);
            rooms.push(Room::Less(rng.pick(&[0, any, any])));
        }
        rooms
    }

    fn bytes(self, length: usize) -> usize {
        match self {
            Room::Exact => length,
            Room::Longer(more) => length + more,
            Room::OneLess => length - 1,
            Room::Less(bytes) => bytes,
        }
    }

    fn class(self) -> &'static str {
        match self {
            Room::Exact => "buffer of the exact length",
            Room::Longer(_) => "buffer longer, bytes after it unchanged",
            Room::OneLess => "buffer one too short, refused 7",
            Room::Less(0) => "buffer of 0 bytes, refused 7",
            Room::Less(_) => "buffer of another length, refused 7",
        }
    }
}

/// What a call left: its code, its output, and the byte that filled it before.
struct Answered {
    code: u64,
    out: Vec<u8>,
    before: u8,
}

pub struct Check<'a> {
    pub other: Option<Nem12>,
    pub tally: &'a mut Tally,
}

impl Check<'_> {
    /// An accepted call: the export whole, too short by one, with bytes behind it, and
    /// read back.
    pub fn accepted(
        &mut self,
        rng: &mut Rng,
        question: &Question,
        class: &str,
    ) -> Result<Vec<u8>, String> {
        let expected = restated_export(&question.file, &question.given.lent(), question.codes);
        let expected = expected.map_err(|number| format!("{number}; {}", question.print()))?;
        let mut export = Vec::new();
        for room in Room::all(rng, expected.len()) {
            if let Some(whole) = self.in_room(rng, question, room, expected.len())? {
                export = whole;
            }
        }
        let back = as_in_file(&export, &question.file, question.codes)
            .and_then(|back| texts_hold(&back, &question.given).map(|()| back))
            .map_err(|what| format!("read back: {what}; {}", question.print()))?;
        self.tally.add("read back as in the file");
        self.tally.add(class);
        Count {
            question,
            back: &back,
            tally: self.tally,
        }
        .all();
        Ok(export)
    }

    /// The export where the room holds it, and nothing where it is too short.
    fn in_room(
        &mut self,
        rng: &mut Rng,
        question: &Question,
        room: Room,
        length: usize,
    ) -> Result<Option<Vec<u8>>, String> {
        let short = room.bytes(length) < length;
        let answered = self.answered(rng, question, room, length)?;
        let number = if short { 7 } else { length as u64 };
        answered.is(number, question)?;
        self.tally.add(room.class());
        if short {
            self.unchanged(question, &answered)?;
            return Ok(None);
        }
        let (export, behind) = answered.out.split_at(length);
        if behind.iter().any(|&byte| byte != answered.before) {
            return Err(format!("nem12: bytes after it; {}", question.print()));
        }
        Ok(Some(export.to_vec()))
    }

    /// Calls with one file, each to be refused for one thing or two or more.
    pub fn refusals(&mut self, rng: &mut Rng, question: Question) -> Result<(), String> {
        for _ in 0..6 {
            let mut question = Question {
                file: question.file.clone(),
                given: texts(rng),
                codes: codes(rng),
            };
            let broken = [(); 3].map(|()| rng.one_in(2));
            self.refused(rng, &mut question, broken)?;
        }
        Ok(())
    }

    /// A call to be refused: for the file as it is, a bad identifier, a bad text, or no
    /// room; none where none of these is so.
    fn refused(
        &mut self,
        rng: &mut Rng,
        question: &mut Question,
        broken: [bool; 3],
    ) -> Result<(), String> {
        let [identifier, text, short] = broken;
        let whole = restated_export(&question.file, &question.given.lent(), question.codes);
        let length = whole.map_or(400, |export| export.len());
        let mut classes = Vec::new();
        if text {
            classes = break_text(rng, question);
        }
        if identifier {
            classes = break_identifier(rng, &mut question.given);
        }
        let faults = faults(&question.file, broken);
        let Some(&number) = faults.first() else {
            return Ok(());
        };
        // Shorter than any export, or long enough for this one, whatever was put in.
        let room = match short {
            true => Room::Less(rng.pick(&[0, 1, 32, 100])),
            false => Room::Longer(length),
        };
        let answered = self.answered(rng, question, room, length)?;
        answered.is(number, question)?;
        self.unchanged(question, &answered)?;
        if let Some(next) = faults.get(1) {
            self.tally.add(&format!("{number} before {next}"));
        }
        if matches!(number, 14 | 15) {
            classes.iter().for_each(|class| self.tally.add(class));
        }
        Ok(())
    }

    /// A refusal changes no byte.
    fn unchanged(&mut self, question: &Question, answered: &Answered) -> Result<(), String> {
        let Answered { code, out, before } = answered;
        if out.iter().any(|byte| byte != before) {
            return Err(format!("nem12: {code}, changed; {}", question.print()));
        }
        self.tally.add(&format!("refused {code}"));
        let room = !out.is_empty();
        self.tally
            .add_if(room, &format!("refused {code}, unchanged"));
        Ok(())
    }

    /// Two files that differ in little: their exports are equal exactly when first day,
    /// D, L and each slot's value and written quality and method are.
    pub fn twins(&mut self, rng: &mut Rng, mut question: Question) -> Result<(), String> {
        let one = Made::random(rng);
        let two = one.changed(rng);
        let equal = one.written(question.codes) == two.written(question.codes);
        question.file = one.file();
        let export = self.accepted(rng, &question, "export of a made file")?;
        question.file = two.file();
        let others = self.accepted(rng, &question, "export of a made file")?;
        if (export == others) != equal {
            return Err(format!("nem12: twins, equal {equal}; {}", question.print()));
        }
        if one.file() != two.file() {
            let class = ["other file, other export", "other file, equal export"];
            self.tally.add(class[usize::from(equal)]);
        }
        Ok(())
    }

    /// What the call leaves, of all builds alike.
    fn answered(
        &self,
        rng: &mut Rng,
        question: &Question,
        room: Room,
        length: usize,
    ) -> Result<Answered, String> {
        let (len, before) = (room.bytes(length), rng.byte());
        let texts = question.given.lent();
        let call = |side: Nem12| {
            let mut out = vec![before; len];
            let code = side(&question.file, &texts, question.codes, &mut out);
            Answered { code, out, before }
        };
        let answered = call(SECOND);
        let other = self.other.map(|other| ("other", other));
        for (name, side) in [("restated", restated as Nem12)].into_iter().chain(other) {
            let others = call(side);
            if (others.code, &others.out) != (answered.code, &answered.out) {
                let what = answered.beside(name, &others);
                return Err(format!("nem12: {what}; {}", question.print()));
            }
        }
        Ok(answered)
    }
}

impl Answered {
    fn is(&self, number: u64, question: &Question) -> Result<(), String> {
        let code = self.code;
        if code != number {
            return Err(format!("nem12: {code}, not {number}; {}", question.print()));
        }
        Ok(())
    }

    /// How another build's differs.
    fn beside(&self, name: &str, others: &Answered) -> String {
        let len = self.out.len();
        let at = (0..len).find(|&i| self.out[i] != others.out[i]);
        let near = |bytes: &[u8]| {
            let at = at.unwrap_or(0);
            let part = &bytes[at.saturating_sub(12).min(len)..len.min(at + 12)];
            String::from_utf8_lossy(part).into_owned()
        };
        format!(
            "{}, {name} {}, output of {len} bytes, first other byte {at:?}: {:?}, {name} {:?}",
            self.code,
            others.code,
            near(&self.out),
            near(&others.out)
        )
    }
}

/// What a call is refused for, in the order in which it is looked for.
fn faults(file: &[u8], [identifier, text, short]: [bool; 3]) -> Vec<u64> {
    let faults = [
        acceptance::read(file).err().map(u64::from),
        identifier.then_some(14),
        text.then_some(15),
        short.then_some(7),
    ];
    faults.into_iter().flatten().collect()
}

/// The texts read back are those that were given.
fn texts_hold(back: &Export, given: &Given) -> Result<(), String> {
    let meter = &back.meter;
    let fields = [
        &meter.identifier,
        &back.from,
        &back.to,
        &meter.configuration,
        &meter.register_id,
        &meter.suffix,
        &meter.stream,
        &meter.serial,
        &meter.next_read,
    ];
    for ((field, text), name) in fields.into_iter().zip(&given.0).zip(NAMES) {
        if field.as_bytes() != text.as_slice() {
            return Err(format!("{name} is {field:?}"));
        }
    }
    let (reason, created) = (&given.0[REASON], &given.0[CREATED]);
    if back.created.as_bytes() != &created[..12] {
        return Err(format!("created is {:?}", back.created));
    }
    for day in &back.days {
        let runs = day.runs.iter().map(|run| &run.mark);
        let mut coded = runs.chain([&day.mark]).filter(|mark| mark.method.is_some());
        if day.updated.as_bytes() != created.as_slice()
            || !coded.all(|mark| mark.reason.as_bytes() == reason.as_slice())
        {
            return Err(format!("updated {:?} or a reason", day.updated));
        }
    }
    Ok(())
}
