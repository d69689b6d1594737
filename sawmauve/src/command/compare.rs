//! `compare`: two files, or two folders of them, side by side.

use super::Verb;
use super::arguments::{Arguments, Opt};
use super::differences;
use super::folders;
use super::sheet;
use super::streams;
use super::trouble::{Status, Trouble};
use sawmauve::{File, Lacks, Pair, compare};
use std::ffi::OsStr;
use std::path::Path;

pub const VERB: Verb = Verb {
    name: "compare",
    takes: "OURS THEIRS [--complete] [--csv]",
    about: "Says whether two files are equal, or what differs",
    help: "\
Options:
  --complete   equal files with a missing slot, or with an open or disagreeing
               span, are status 1 too
  --csv        what differs as CSV, a line each

Equal files are one line: their line as `show` writes it, how many slots are
missing, and how many spans are open or disagree. Else the status is 1, and what
differs is written: layout, first day, days, interval; spans with both advances
and states; unbroken runs of slots with value, quality and method on both sides;
the sums of their days and of the files. A difference is ours minus theirs.
A file that the reader accepts is the writing of what it gives, so that two
files differ in nothing else. A refused file is status 2. Where first day, days
or interval differ the slots are other times, and only the sums are compared.

OURS and THEIRS may be folders: their *.file by name, a line a meter and a last
line with the counts. The status is 2 where a file is refused or cannot be read,
or no two were compared; else 1 where a meter is not equal on both sides.
",
    options: &[Opt("--complete", false), Opt("--csv", false)],
    run,
};

/// How many slots are missing, and spans open or disagreeing.
pub fn lacks_words(lacks: &Lacks) -> String {
    let Lacks {
        missing,
        open,
        disagreeing,
    } = lacks;
    format!("slots missing {missing}, spans open {open}, disagreeing {disagreeing}")
}

/// Both of two things that were asked for; where both fail, both are reported.
pub fn both<T>(ours: Result<T, Trouble>, theirs: Result<T, Trouble>) -> Result<Pair<T>, Trouble> {
    match (ours, theirs) {
        (Ok(ours), Ok(theirs)) => Ok(Pair { ours, theirs }),
        (Err(one), Err(other)) => {
            one.tell();
            Err(other)
        }
        (Err(trouble), _) | (_, Err(trouble)) => Err(trouble),
    }
}

/// The two names; one of them may be standard input.
pub fn two_names<'a>(arguments: &'a Arguments, what: &str) -> Result<[&'a OsStr; 2], Trouble> {
    let names = arguments.exactly(what)?;
    if names == ["-", "-"] {
        return Err(arguments.usage("only one of the two can be standard input"));
    }
    Ok(names)
}

fn is_folder(name: &OsStr) -> bool {
    name != "-" && Path::new(name).is_dir()
}

fn read(name: &OsStr) -> Result<File, Trouble> {
    streams::read_file(name)?.map_err(|error| Trouble::refused(name, error))
}

/// Equal files in a line, or what differs, and the status.
fn told(arguments: &Arguments, files: &Pair<File>) -> Result<(String, Status), sawmauve::Error> {
    let (found, lacks) = (compare(&files.ours, &files.theirs), Lacks::of(&files.ours));
    let status = match found.is_empty() {
        false => Status::No,
        true if arguments.has("--complete") && !lacks.is_complete() => Status::No,
        true => Status::Done,
    };
    let text = if arguments.has("--csv") {
        sheet::rows(&found)
    } else if found.is_empty() {
        let line = files.ours.line()?;
        let line = String::from_utf8_lossy(&line);
        format!("equal: {line}; {}\n", lacks_words(&lacks))
    } else {
        differences::lines(&found)
    };
    Ok((text, status))
}

fn run(arguments: &Arguments) -> Result<Status, Trouble> {
    let [ours, theirs] = two_names(arguments, "two files or two folders")?;
    match (is_folder(ours), is_folder(theirs)) {
        (false, false) => {}
        (true, true) => return folders::compare_all(arguments, ours, theirs),
        _ => return Err(arguments.usage("wants two files or two folders")),
    }
    let files = both(read(ours), read(theirs))?;
    let (text, status) = told(arguments, &files).map_err(|error| Trouble::refused(ours, error))?;
    streams::write(text.as_bytes())?;
    Ok(status)
}
