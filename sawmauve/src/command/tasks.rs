//! Many logs published on all cores, and reported in the order in which they were named.

use super::arguments::Arguments;
use super::publish::{flushed, published, stored};
use super::trouble::{Status, Trouble, line_about, tell};
use std::collections::{BTreeMap, BTreeSet, HashMap};
use std::ffi::{OsStr, OsString};
use std::fs;
use std::io::{self, IsTerminal, Write};
use std::os::unix::ffi::{OsStrExt, OsStringExt};
use std::path::{Path, PathBuf};
use std::sync::atomic::{AtomicUsize, Ordering};
use std::sync::mpsc::{Receiver, Sender, channel};
use std::thread;

/// A log, and the file that it becomes.
struct Task {
    log: PathBuf,
    file: PathBuf,
}

/// What became of a task: its status, a line for standard error, and the folder in which a name changed.
struct Report {
    status: Status,
    line: Option<Vec<u8>>,
    folder: Option<PathBuf>,
}

/// What became of all: the worst status, and the folders that are to be flushed.
struct Told {
    status: Status,
    folders: BTreeSet<PathBuf>,
}

/// What is named *.extension in a folder, in the order of the names.
pub fn named(folder: &Path, extension: &str) -> Result<Vec<PathBuf>, Trouble> {
    let trouble = |error| Trouble::io(folder.as_os_str(), &error);
    let mut found = Vec::new();
    for entry in fs::read_dir(folder).map_err(trouble)? {
        let path = entry.map_err(trouble)?.path();
        if path.extension() == Some(OsStr::new(extension)) {
            found.push(path);
        }
    }
    found.sort();
    Ok(found)
}

/// The *.log of a folder.
fn logs_of(folder: &Path) -> Result<Vec<PathBuf>, Trouble> {
    let logs = named(folder, "log")?;
    if logs.is_empty() {
        return Err(Trouble::about(folder.as_os_str(), "no *.log in it"));
    }
    Ok(logs)
}

fn all_logs(words: &[OsString]) -> Result<Vec<PathBuf>, Trouble> {
    let mut logs = Vec::new();
    for word in words {
        let path = PathBuf::from(word);
        if path.is_dir() {
            logs.extend(logs_of(&path)?);
        } else {
            logs.push(path);
        }
    }
    Ok(logs)
}

/// x.log becomes x.file; any other name has .file after it.
fn file_name(log: &Path) -> Option<OsString> {
    let name = log
        .file_name()
        .filter(|_| log != Path::new("-"))?
        .as_bytes();
    let stem = name
        .strip_suffix(b".log")
        .filter(|stem| !stem.is_empty())
        .unwrap_or(name);
    Some(OsString::from_vec([stem, b".file"].concat()))
}

/// The tasks, where each has a place of its own, also through symbolic links.
fn tasks_of(logs: Vec<PathBuf>, folder: &Path) -> Result<Vec<Task>, Trouble> {
    let mut taken: HashMap<PathBuf, PathBuf> = HashMap::new();
    let mut tasks = Vec::new();
    for log in logs {
        let no_name = || Trouble::about(log.as_os_str(), "no name to make a file's of");
        let file = folder.join(file_name(&log).ok_or_else(no_name)?);
        let place = fs::canonicalize(&file).unwrap_or_else(|_| file.clone());
        if let Some(other) = taken.insert(place, log.clone()) {
            let both = [other.as_os_str(), OsStr::new(" and "), log.as_os_str()];
            let names: OsString = both.into_iter().collect();
            return Err(Trouble::about(&names, "one output name"));
        }
        tasks.push(Task { log, file });
    }
    Ok(tasks)
}

fn publish_task(task: &Task, strict: bool) -> Result<Report, Trouble> {
    let name = task.log.as_os_str();
    let published = published(name)?;
    let line = published.refused.map(|words| line_about(name, words));
    if strict && line.is_some() {
        return Ok(Report {
            status: Status::No,
            line,
            folder: None,
        });
    }
    let folder = stored(&task.file, &published.file)?;
    Ok(Report {
        status: Status::Done,
        line,
        folder,
    })
}

fn report(task: &Task, strict: bool) -> Report {
    publish_task(task, strict).unwrap_or_else(|trouble| Report {
        status: Status::Trouble,
        line: trouble.into_line(),
        folder: None,
    })
}

/// One worker: takes the next task until none is left.
fn work(tasks: &[Task], next: &AtomicUsize, strict: bool, reports: Sender<(usize, Report)>) {
    loop {
        let place = next.fetch_add(1, Ordering::Relaxed);
        let Some(task) = tasks.get(place) else {
            return;
        };
        if reports.send((place, report(task, strict))).is_err() {
            return;
        }
    }
}

/// A text for whoever watches, in place of the one before it.
fn show_progress(text: &str) {
    if io::stderr().is_terminal() {
        let _ = write!(io::stderr(), "\r\x1b[K{text}");
    }
}

/// Writes the reports in the order of the tasks.
fn tell_all(reports: Receiver<(usize, Report)>, all: usize) -> Told {
    let mut told = Told {
        status: Status::Done,
        folders: BTreeSet::new(),
    };
    let (mut waiting, mut next) = (BTreeMap::new(), 0);
    for (done, (place, report)) in (1..).zip(reports) {
        told.status = told.status.max(report.status);
        told.folders.extend(report.folder);
        waiting.insert(place, report.line);
        while let Some(line) = waiting.remove(&next) {
            next += 1;
            if let Some(line) = line {
                show_progress("");
                tell(&line);
            }
        }
        show_progress(&format!("{done} of {all}"));
    }
    show_progress("");
    told
}

fn publish_all(tasks: &[Task], jobs: usize, strict: bool) -> io::Result<Told> {
    let next = AtomicUsize::new(0);
    let (sender, receiver) = channel();
    thread::scope(|scope| {
        for worker in 0..jobs.min(tasks.len()) {
            let (sender, next) = (sender.clone(), &next);
            let work = move || work(tasks, next, strict, sender);
            match thread::Builder::new().spawn_scoped(scope, work) {
                Err(error) if worker == 0 => return Err(error),
                _ => {}
            }
        }
        drop(sender);
        Ok(tell_all(receiver, tasks.len()))
    })
}

fn jobs(arguments: &Arguments) -> Result<usize, Trouble> {
    match arguments.number("--jobs")? {
        Some(0) => Err(arguments.usage("--jobs wants a number from 1 up")),
        Some(jobs) => Ok(jobs as usize),
        None => Ok(thread::available_parallelism().map_or(1, usize::from)),
    }
}

/// Publishes the logs that are named, each to its file in a folder.
pub fn many(arguments: &Arguments, folder: &Path, strict: bool) -> Result<Status, Trouble> {
    let jobs = jobs(arguments)?;
    if arguments.words.is_empty() {
        return Err(arguments.usage("wants a log"));
    }
    if !folder.is_dir() {
        return Err(Trouble::about(folder.as_os_str(), "not a folder"));
    }
    let tasks = tasks_of(all_logs(&arguments.words)?, folder)?;
    let threads = OsStr::new("a thread");
    let told = publish_all(&tasks, jobs, strict).map_err(|error| Trouble::io(threads, &error))?;
    told.folders.iter().try_for_each(|folder| flushed(folder))?;
    Ok(told.status)
}
