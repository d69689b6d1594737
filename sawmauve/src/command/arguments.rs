//! The words and options after a verb.

use super::trouble::Trouble;
use sawmauve::number;
use std::ffi::{OsStr, OsString};
use std::os::unix::ffi::{OsStrExt, OsStringExt};

/// An option: its name, and whether a value follows it.
pub struct Opt(pub &'static str, pub bool);

const HELP: Opt = Opt("--help", false);

/// What was given: words in their order, and options, each at most once.
pub struct Arguments {
    verb: &'static str,
    pub words: Vec<OsString>,
    options: Vec<(&'static str, OsString)>,
}

/// An option's name, and the value after its `=`.
fn cut(word: &OsStr) -> (&OsStr, Option<OsString>) {
    let bytes = word.as_bytes();
    match bytes.iter().position(|byte| *byte == b'=') {
        Some(at) if bytes.starts_with(b"--") => (
            OsStr::from_bytes(&bytes[..at]),
            Some(OsString::from_vec(bytes[at + 1..].to_vec())),
        ),
        _ => (word, None),
    }
}

fn is_option(word: &OsStr) -> bool {
    word.len() > 1 && word.as_bytes().starts_with(b"-")
}

impl Arguments {
    pub fn parse(
        verb: &'static str,
        known: &'static [Opt],
        given: Vec<OsString>,
    ) -> Result<Arguments, Trouble> {
        let mut arguments = Arguments {
            verb,
            words: Vec::new(),
            options: Vec::new(),
        };
        let mut rest = given.into_iter();
        while let Some(word) = rest.next() {
            if word == "--" {
                arguments.words.extend(rest);
                break;
            }
            if is_option(&word) {
                arguments.take(known, &word, &mut rest)?;
            } else {
                arguments.words.push(word);
            }
        }
        Ok(arguments)
    }

    fn take(
        &mut self,
        known: &'static [Opt],
        word: &OsStr,
        rest: &mut impl Iterator<Item = OsString>,
    ) -> Result<(), Trouble> {
        let (name, behind) = cut(word);
        let Some(Opt(name, takes)) = known.iter().chain([&HELP]).find(|option| name == option.0)
        else {
            return Err(Trouble::about(word, format!("no option of {}", self.verb)));
        };
        if self.has(name) {
            return Err(self.usage(format!("{name} is given twice")));
        }
        let value = match (takes, behind) {
            (true, Some(value)) => value,
            (true, None) => rest
                .next()
                .ok_or_else(|| self.usage(format!("{name} wants a value")))?,
            (false, None) => OsString::new(),
            (false, Some(_)) => return Err(self.usage(format!("{name} takes no value"))),
        };
        self.options.push((name, value));
        Ok(())
    }

    /// A line about how the verb is used.
    pub fn usage(&self, what: impl std::fmt::Display) -> Trouble {
        let verb = self.verb;
        Trouble::line(format!("{verb}: {what} (see sawmauve {verb} --help)"))
    }

    pub fn value(&self, name: &str) -> Option<&OsStr> {
        let found = self.options.iter().find(|(option, _)| *option == name);
        found.map(|(_, value)| value.as_os_str())
    }

    pub fn has(&self, name: &str) -> bool {
        self.value(name).is_some()
    }

    /// The value of an option that is a number.
    pub fn number(&self, name: &str) -> Result<Option<u32>, Trouble> {
        let Some(value) = self.value(name) else {
            return Ok(None);
        };
        let not = || Trouble::about(value, format!("{name} wants a number"));
        number(value.as_bytes()).map(Some).ok_or_else(not)
    }

    /// The words, where there are exactly as many as wanted.
    pub fn exactly<const N: usize>(&self, what: &str) -> Result<[&OsStr; N], Trouble> {
        let words: Vec<&OsStr> = self.words.iter().map(OsString::as_os_str).collect();
        words
            .try_into()
            .map_err(|_| self.usage(format!("wants {what}")))
    }
}
