//! Compares the export to the market's files, W8, with a restatement and another build,
//! and reads it back. `sources` has the files, `given` the texts and codes, `check` the calls,
//! `restated` W8's sentences again, `classes` what was met.

pub mod back;
mod check;
mod classes;
pub mod files;
mod given;
pub mod reader;
mod restated;
mod sources;
#[cfg(test)]
mod tests;

use crate::compare::rng::Rng;
use crate::second::market::{self, Codes, Texts};
use crate::tries::{Tally, hex};
use check::Check;
pub use classes::CLASSES;
use given::{Given, NAMES, codes, texts};
pub use sources::Files;

/// The call of one build: file, texts, method codes, output; the length or the refusal.
pub type Nem12 = fn(&[u8], &Texts, Codes, &mut [u8]) -> u64;

pub const SECOND: Nem12 = market::nem12_code;

/// One call without its output.
struct Question {
    file: Vec<u8>,
    given: Given,
    codes: Codes,
}

/// One try: which kind it is goes by its number.
pub fn one(
    files: &Files,
    rng: &mut Rng,
    index: u64,
    other: Option<Nem12>,
    tally: &mut Tally,
) -> Result<(), String> {
    let mut question = Question {
        file: Vec::new(),
        given: texts(rng),
        codes: codes(rng),
    };
    let mut check = Check { other, tally };
    if index % 16 == 9 {
        return check.twins(rng, question);
    }
    let (file, class) = files.of_try(rng, index);
    question.file = file;
    match class {
        Some(class) => check.accepted(rng, &question, class).map(drop),
        None => check.refusals(rng, question),
    }
}

impl Question {
    /// The question in full where the file is short; the seed and the try give the others.
    fn print(&self) -> String {
        let file = if self.file.len() <= 8192 {
            hex(&self.file)
        } else {
            "(long)".to_string()
        };
        let texts = NAMES.iter().zip(&self.given.0);
        let texts: Vec<String> = texts
            .map(|(name, text)| format!("{name} \"{}\"", text.escape_ascii()))
            .collect();
        format!(
            "{}, codes {:?}, a file of {} bytes: {file}",
            texts.join(", "),
            self.codes,
            self.file.len()
        )
    }
}
