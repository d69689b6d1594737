//! `nem12`: a file as NEM12, with the fields that an office gives.

use super::Verb;
use super::arguments::{Arguments, Opt};
use super::streams;
use super::trouble::{Status, Trouble, refused_line, tell};
use sawmauve::{Fields, number};
use std::ffi::OsStr;
use std::os::unix::ffi::OsStrExt;

pub const VERB: Verb = Verb {
    name: "nem12",
    takes: "FILE [--fields FIELDS] [--FIELD VALUE]..",
    about: "Writes a file as NEM12, the market's meter data file",
    help: "\
Options:
  --nmi            the meter identifier, ten characters
  --from           record 100: the participant that the file comes from
  --to             record 100: the participant that it goes to
  --configuration  record 200: the meter's configuration
  --register       record 200: the register's identifier
  --suffix         record 200: the suffix of the meter identifier
  --stream         record 200: the data stream's identifier
  --serial         record 200: the meter's serial number
  --next-read      record 200: the date of the next read
  --reason         the reason code of substituted and agreed slots
  --created        the creation time, 14 digits
  --method-2, --method-3, --method-5, --method-18, --method-19
                   the codes for these methods, up to 99
  --fields FIELDS  a file of lines `name = value`, the names as above without
                   their dashes; an option goes before its line

Each field must be given; a value may be empty. A refused file is status 1.
",
    options: &[
        Opt("--fields", true),
        Opt("--nmi", true),
        Opt("--from", true),
        Opt("--to", true),
        Opt("--configuration", true),
        Opt("--register", true),
        Opt("--suffix", true),
        Opt("--stream", true),
        Opt("--serial", true),
        Opt("--next-read", true),
        Opt("--reason", true),
        Opt("--created", true),
        Opt("--method-2", true),
        Opt("--method-3", true),
        Opt("--method-5", true),
        Opt("--method-18", true),
        Opt("--method-19", true),
    ],
    run,
};

/// A field's option without its dashes.
fn names() -> impl Iterator<Item = &'static str> {
    VERB.options[1..]
        .iter()
        .map(|option| option.0.trim_start_matches('-'))
}

/// The lines of a file of fields, by name.
struct Office(Vec<(&'static str, Vec<u8>)>);

/// The name and the value of a line; nothing of an empty line or a comment.
fn field_of(line: &[u8]) -> Result<Option<(&'static str, &[u8])>, &'static str> {
    let line = line.trim_ascii();
    if line.is_empty() || line.starts_with(b"#") {
        return Ok(None);
    }
    let at = line
        .iter()
        .position(|byte| *byte == b'=')
        .ok_or("not `name = value`")?;
    let (name, value) = (line[..at].trim_ascii(), line[at + 1..].trim_ascii());
    let known = names()
        .find(|known| known.as_bytes() == name)
        .ok_or("no field of nem12")?;
    Ok(Some((known, value)))
}

impl Office {
    fn add(&mut self, line: &[u8]) -> Result<(), &'static str> {
        let Some((name, value)) = field_of(line)? else {
            return Ok(());
        };
        if self.value(name).is_some() {
            return Err("a field that stands twice");
        }
        self.0.push((name, value.to_vec()));
        Ok(())
    }

    fn read(name: &OsStr) -> Result<Office, Trouble> {
        let bytes = streams::read(name)?;
        let mut office = Office(Vec::new());
        for (number, line) in (1..).zip(bytes.split(|byte| *byte == b'\n')) {
            let added = office.add(line);
            added.map_err(|what| Trouble::at(name, number, what))?;
        }
        Ok(office)
    }

    fn value(&self, name: &str) -> Option<&[u8]> {
        let found = self.0.iter().find(|(field, _)| *field == name);
        found.map(|(_, value)| &value[..])
    }
}

/// The fields, from options and from an office's file.
struct Given<'a> {
    arguments: &'a Arguments,
    office: Office,
}

impl Given<'_> {
    fn value(&self, name: &str) -> Option<&[u8]> {
        let option = self.arguments.value(&format!("--{name}"));
        option
            .map(OsStrExt::as_bytes)
            .or_else(|| self.office.value(name))
    }

    fn text(&self, name: &str) -> Vec<u8> {
        self.value(name).unwrap_or_default().to_vec()
    }

    fn code(&self, name: &str) -> Result<u32, Trouble> {
        let value = self.value(name).unwrap_or_default();
        let not = || Trouble::about(OsStr::from_bytes(value), format!("--{name} wants a number"));
        number(value).ok_or_else(not)
    }

    fn fields(&self) -> Result<Fields, Trouble> {
        Ok(Fields {
            identifier: self.text("nmi"),
            from: self.text("from"),
            to: self.text("to"),
            configuration: self.text("configuration"),
            register: self.text("register"),
            suffix: self.text("suffix"),
            stream: self.text("stream"),
            serial: self.text("serial"),
            next_read: self.text("next-read"),
            reason: self.text("reason"),
            created: self.text("created"),
            method_2: self.code("method-2")?,
            method_3: self.code("method-3")?,
            method_5: self.code("method-5")?,
            method_18: self.code("method-18")?,
            method_19: self.code("method-19")?,
        })
    }
}

fn fields(arguments: &Arguments) -> Result<Fields, Trouble> {
    let office = match arguments.value("--fields") {
        Some(name) => Office::read(name)?,
        None => Office(Vec::new()),
    };
    let given = Given { arguments, office };
    let missing: Vec<&str> = names().filter(|name| given.value(name).is_none()).collect();
    if !missing.is_empty() {
        return Err(arguments.usage(format!("missing: {}", missing.join(", "))));
    }
    given.fields()
}

fn run(arguments: &Arguments) -> Result<Status, Trouble> {
    let [name] = arguments.exactly("a file")?;
    let fields = fields(arguments)?;
    let file = match streams::read_file(name)? {
        Ok(file) => file,
        Err(error) => {
            tell(&refused_line(name, error));
            return Ok(Status::No);
        }
    };
    let export = file.nem12(&fields).map_err(Trouble::line)?;
    streams::write(&export)?;
    Ok(Status::Done)
}
