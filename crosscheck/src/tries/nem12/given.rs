//! The texts and method codes of a call, good and broken.

use super::Question;
use crate::compare::rng::Rng;
use crate::number::narrowed;
use crate::second::market::{Codes, METHODS, Texts};

/// The texts of a call, in its order.
pub struct Given(pub [Vec<u8>; 11]);

const IDENTIFIER: usize = 0;
pub const REASON: usize = 9;
pub const CREATED: usize = 10;

pub const NAMES: [&str; 11] = [
    "identifier",
    "from",
    "to",
    "configuration",
    "register_id",
    "suffix",
    "stream",
    "serial",
    "next_read",
    "reason",
    "created",
];

impl Given {
    pub fn lent(&self) -> Texts<'_> {
        let [
            identifier,
            from,
            to,
            configuration,
            register_id,
            suffix,
            stream,
            serial,
            next_read,
            reason,
            created,
        ] = &self.0;
        Texts {
            identifier,
            from,
            to,
            configuration,
            register_id,
            suffix,
            stream,
            serial,
            next_read,
            reason,
            created,
        }
    }

    /// Those that 15 is about, without the creation time.
    pub fn fields(&self) -> &[Vec<u8>] {
        &self.0[1..=REASON]
    }
}

/// The characters of an identifier.
pub const LETTERS: &[u8] = b"ABCDEFGHJKLMNPQRSTUVWXYZ0123456789";

pub fn texts(rng: &mut Rng) -> Given {
    let empty = rng.one_in(12);
    let mut given = Given([const { Vec::new() }; 11]);
    for (place, text) in given.0.iter_mut().enumerate() {
        *text = match place {
            IDENTIFIER => (0..10).map(|_| rng.pick(LETTERS)).collect(),
            CREATED => created(rng),
            _ if empty => Vec::new(),
            _ => field(rng),
        };
    }
    given
}

fn created(rng: &mut Rng) -> Vec<u8> {
    match rng.below(6) {
        0 => rng
            .pick(&["00000000000000", "99999999999999", "20240631256199"])
            .into(),
        1 => (0..14)
            .map(|_| b'0' + narrowed::<u8>(rng.below(10)))
            .collect(),
        _ => "20240601000000".into(),
    }
}

fn field(rng: &mut Rng) -> Vec<u8> {
    let any = rng.below(20);
    let length = rng.pick(&[0, 1, 2, 10, any, any, any, 101]);
    match rng.below(4) {
        0 => vec![rng.pick(b" ~+-!\"'0A"); length],
        1 => (0..length).map(|_| rng.pick(LETTERS)).collect(),
        _ => {
            let byte = |rng: &mut Rng| match narrowed(rng.between(0x20, 0x7E)) {
                b',' => b'+',
                byte => byte,
            };
            (0..length).map(|_| byte(rng)).collect()
        }
    }
}

/// Codes up to 99, often equal ones for different methods.
pub fn codes(rng: &mut Rng) -> Codes {
    let any = [(); 5].map(|()| rng.between(0, 99));
    let edges = [(); 5].map(|()| rng.pick(&[0, 9, 10, 99]));
    let two = [(); 5].map(|()| rng.pick(&[any[0], any[1]]));
    match rng.below(6) {
        0 => [any[0]; 5],
        1 => edges,
        2 => [any[0], any[0], any[1], any[2], any[2]],
        3 | 4 => two,
        _ => any,
    }
}

/// Breaks the identifier; its classes.
pub fn break_identifier(rng: &mut Rng, given: &mut Given) -> Vec<String> {
    let identifier = &mut given.0[IDENTIFIER];
    let (byte, class) = match rng.below(9) {
        0 => {
            identifier.clear();
            return vec!["14: no byte".to_string()];
        }
        1 => {
            identifier.pop();
            return vec!["14: nine bytes".to_string()];
        }
        2 => {
            identifier.push(rng.pick(LETTERS));
            return vec!["14: eleven bytes".to_string()];
        }
        3 => (b'I', "14: I"),
        4 => (b'O', "14: O"),
        5 => (rng.pick(b"abiloz"), "14: small letter"),
        6 | 7 => (
            rng.pick(b"@[/: -,"),
            "14: byte beside the letters or digits",
        ),
        _ => (rng.pick(&[0x7F, 0x80, 0xC1, 0xFF]), "14: byte over 0x7E"),
    };
    let at = rng.pick(&[0, 9, 4, 7]);
    identifier[at] = byte;
    let mut classes = vec![class.to_string()];
    match at {
        0 => classes.push("14: first byte".to_string()),
        9 => classes.push("14: last byte".to_string()),
        _ => {}
    }
    classes
}

/// Breaks a text, the creation time or a code; its classes.
pub fn break_text(rng: &mut Rng, question: &mut Question) -> Vec<String> {
    match rng.below(10) {
        0..6 => break_field(rng, &mut question.given),
        6 | 7 => vec![break_created(rng, &mut question.given).to_string()],
        _ => break_code(rng, &mut question.codes),
    }
}

fn break_field(rng: &mut Rng, given: &mut Given) -> Vec<String> {
    let place = 1 + rng.below(REASON);
    let (byte, class) = rng.pick(&[
        (b',', "15: comma"),
        (b',', "15: comma"),
        (0x1F, "15: byte 0x1F"),
        (0x7F, "15: byte 0x7F"),
        (b'\r', "15: byte 0x0D or 0x0A"),
        (b'\n', "15: byte 0x0D or 0x0A"),
        (0, "15: byte 0"),
        (0x80, "15: byte over 0x7F"),
        (0xFF, "15: byte over 0x7F"),
    ]);
    let text = &mut given.0[place];
    let any = rng.below(text.len() + 1);
    let at = rng.pick(&[0, text.len(), any]);
    text.insert(at, byte);
    vec![format!("15: {}", NAMES[place]), class.to_string()]
}

fn break_created(rng: &mut Rng, given: &mut Given) -> &'static str {
    let created = &mut given.0[CREATED];
    match rng.below(5) {
        0 => {
            created.clear();
            "15: creation time empty"
        }
        1 => {
            created.pop();
            "15: creation time of 13 digits"
        }
        2 => {
            created.push(b'0');
            "15: creation time of 15 digits"
        }
        _ => {
            created[rng.pick(&[0, 13, 5, 12])] = rng.pick(b"/: -Aa,\0\xFF");
            "15: creation time with another byte"
        }
    }
}

fn break_code(rng: &mut Rng, codes: &mut Codes) -> Vec<String> {
    let place = rng.below(5);
    let any = rng.between(100, 255);
    // 270 would be 14 in a byte.
    let code = rng.pick(&[100, 255, 256, 270, u32::MAX, any]);
    codes[place] = code;
    let mut classes = vec![format!("15: code of method {}", METHODS[place])];
    if matches!(code, 100 | 255 | 270) {
        classes.push(format!("15: code {code}"));
    }
    classes
}
