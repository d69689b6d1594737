//! `publish`: the file of a log, or of many.

use super::Verb;
use super::arguments::{Arguments, Opt};
use super::store;
use super::streams;
use super::tasks;
use super::trouble::{Status, Trouble, line_about, tell};
use sawmauve::{Log, calls};
use std::ffi::OsStr;
use std::fs;
use std::path::{Path, PathBuf};

pub const VERB: Verb = Verb {
    name: "publish",
    takes: "LOG.. [-o FILE | -d FOLDER] [--jobs N] [--strict]",
    about: "Publishes the file of a log, or of many",
    help: "\
Options:
  -o FILE     the file of one log; without it standard output, unless that is a terminal
  -d FOLDER   the files of many logs: x.log, or each *.log of a folder that is
              named, becomes FOLDER/x.file
  --jobs N    how many logs at a time; without it as many as there are cores
  --strict    a log that has a refused call is status 1, and no file is written

A file is written under a name that begins with a dot, read back by the proved
reader, flushed and renamed: a run that fails or is interrupted leaves the old
file. Of many logs a bad one is named and the others are published, status 2.
Two logs with one output name are status 2 before anything is written.

Standard error reports how many calls were refused, and how many of these are
conflicts (10). Where none is a conflict, no order of these calls gives another
file.
",
    options: &[
        Opt("-o", true),
        Opt("-d", true),
        Opt("--jobs", true),
        Opt("--strict", false),
    ],
    run,
};

/// A log's file, and what standard error reports of refused calls.
pub struct Published {
    pub file: Vec<u8>,
    pub refused: Option<String>,
}

fn refused_words(refused: usize, conflicts: usize) -> Option<String> {
    match (refused, conflicts) {
        (0, _) => None,
        (_, 0) => Some(format!("{refused} refused, none of them a conflict (10)")),
        (_, 1) => Some(format!("{refused} refused, 1 of them a conflict (10)")),
        _ => Some(format!(
            "{refused} refused, {conflicts} of them conflicts (10)"
        )),
    }
}

/// Plays a log and publishes its book.
pub fn published(name: &OsStr) -> Result<Published, Trouble> {
    let bytes = streams::read(name)?;
    let refused = |error| Trouble::refused(name, error);
    let played = Log::read(&bytes)
        .and_then(|log| log.play())
        .map_err(refused)?;
    let file = played.book.publish().map_err(refused)?;
    let (calls, conflicts) = played.refused();
    Ok(Published {
        file,
        refused: refused_words(calls, conflicts),
    })
}

/// Puts a file in its place, read back by the proved reader, and answers the folder that is to be flushed.
pub fn stored(path: &Path, file: &[u8]) -> Result<Option<PathBuf>, Trouble> {
    let accepts = |bytes: &[u8]| calls::check(bytes) == 0;
    store::store(path, file, accepts).map_err(|error| Trouble::io(path.as_os_str(), &error))
}

/// Flushes the folder that new files lie in.
pub fn flushed(folder: &Path) -> Result<(), Trouble> {
    store::flush_folder(folder).map_err(|error| Trouble::io(folder.as_os_str(), &error))
}

/// Both names lead to one place.
pub fn is_same(log: &OsStr, out: &OsStr) -> bool {
    match (fs::canonicalize(log), fs::canonicalize(out)) {
        (Ok(log), Ok(out)) => log == out,
        _ => false,
    }
}

fn put(out: Option<&OsStr>, file: &[u8]) -> Result<(), Trouble> {
    match out {
        None => streams::write_bytes(file),
        Some(name) if name == "-" => streams::write(file),
        Some(name) => match stored(Path::new(name), file)? {
            Some(folder) => flushed(&folder),
            None => Ok(()),
        },
    }
}

fn one(log: &OsStr, out: Option<&OsStr>, strict: bool) -> Result<Status, Trouble> {
    if let Some(name) = out.filter(|name| is_same(log, name)) {
        return Err(Trouble::about(name, "the log itself"));
    }
    let published = published(log)?;
    let is_refused = strict && published.refused.is_some();
    if !is_refused {
        put(out, &published.file)?;
    }
    if let Some(words) = published.refused {
        tell(&line_about(log, words));
    }
    Ok(if is_refused { Status::No } else { Status::Done })
}

fn run(arguments: &Arguments) -> Result<Status, Trouble> {
    let strict = arguments.has("--strict");
    match (arguments.value("-o"), arguments.value("-d")) {
        (Some(_), Some(_)) => Err(arguments.usage("-o and -d exclude each other")),
        (None, Some(folder)) => tasks::many(arguments, Path::new(folder), strict),
        (out, None) if arguments.words.len() < 2 && !arguments.has("--jobs") => {
            let [log] = arguments.exactly("a log")?;
            one(log, out, strict)
        }
        _ => Err(arguments.usage("several logs and --jobs want -d FOLDER")),
    }
}
