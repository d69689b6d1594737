//! `strips` and `unstrips`: a slot table laid out for storage, and back.

use super::Verb;
use super::arguments::{Arguments, Opt};
use super::streams;
use super::trouble::{Status, Trouble, refused_line, tell};
use sawmauve::from_strips;

pub const TO: Verb = Verb {
    name: "strips",
    takes: "FILE",
    about: "Lays the slot table of a file out for storage",
    help: "\
Each value becomes its difference from the same position a day earlier, then all
first bytes are written, all second bytes and so on. A refused file is status 1.
",
    options: &[],
    run: to,
};

pub const FROM: Verb = Verb {
    name: "unstrips",
    takes: "STRIPS --interval L",
    about: "Restores the slot table that strips was given",
    help: "Options:\n  --interval L   5, 15 or 30 minutes, as in the file\n",
    options: &[Opt("--interval", true)],
    run: from,
};

fn to(arguments: &Arguments) -> Result<Status, Trouble> {
    let [name] = arguments.exactly("a file")?;
    let strips = match streams::read_file(name)?.and_then(|file| file.strips()) {
        Ok(strips) => strips,
        Err(error) => {
            tell(&refused_line(name, error));
            return Ok(Status::No);
        }
    };
    streams::write_bytes(&strips)?;
    Ok(Status::Done)
}

fn from(arguments: &Arguments) -> Result<Status, Trouble> {
    let [name] = arguments.exactly("strips")?;
    let Some(interval) = arguments.number("--interval")? else {
        return Err(arguments.usage("--interval is missing"));
    };
    let table = from_strips(interval, &streams::read(name)?);
    streams::write_bytes(&table.map_err(|error| Trouble::refused(name, error))?)?;
    Ok(Status::Done)
}
