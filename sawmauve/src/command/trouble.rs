//! Statuses, and the one line that reports trouble.

use std::ffi::OsStr;
use std::fmt::Display;
use std::io::{self, Write};
use std::os::unix::ffi::OsStrExt;
use std::panic::{self, PanicHookInfo};
use std::process;

/// What the command ends with.
#[derive(Clone, Copy, Debug, PartialEq, Eq, PartialOrd, Ord)]
#[repr(u8)]
pub enum Status {
    Done = 0,
    No = 1,
    Trouble = 2,
}

/// What went wrong: a line for standard error, or a reader that went away, of which nothing is reported.
#[derive(Debug)]
pub enum Trouble {
    Line(Vec<u8>),
    Pipe,
}

/// A name as one line can hold it: control characters become `?`, all other bytes stay.
fn shown(name: &OsStr) -> Vec<u8> {
    let name = if name == "-" {
        OsStr::new("standard input")
    } else {
        name
    };
    let bytes = name.as_bytes().iter();
    bytes
        .map(|byte| if byte.is_ascii_control() { b'?' } else { *byte })
        .collect()
}

/// An error of the system in words, without its number.
fn words(error: &io::Error) -> String {
    let text = error.to_string();
    match text.find(" (os error") {
        Some(end) => text[..end].to_string(),
        None => text,
    }
}

/// A line about a name.
pub fn line_about(name: &OsStr, what: impl Display) -> Vec<u8> {
    let mut line = shown(name);
    line.extend(format!(": {what}").into_bytes());
    line
}

/// A line about a line of what stands under a name.
fn line_at(name: &OsStr, number: u64, what: impl Display) -> Vec<u8> {
    let mut line = shown(name);
    line.extend(format!(":{number}: {what}").into_bytes());
    line
}

/// A line about a log or a file that the library turned away.
pub fn refused_line(name: &OsStr, error: sawmauve::Error) -> Vec<u8> {
    match error.line() {
        Some(number) => line_at(name, number, error),
        None => line_about(name, error),
    }
}

impl Trouble {
    pub fn line(text: impl Display) -> Trouble {
        Trouble::Line(text.to_string().into_bytes())
    }

    pub fn about(name: &OsStr, what: impl Display) -> Trouble {
        Trouble::Line(line_about(name, what))
    }

    pub fn at(name: &OsStr, number: u64, what: impl Display) -> Trouble {
        Trouble::Line(line_at(name, number, what))
    }

    pub fn refused(name: &OsStr, error: sawmauve::Error) -> Trouble {
        Trouble::Line(refused_line(name, error))
    }

    pub fn io(name: &OsStr, error: &io::Error) -> Trouble {
        if error.kind() == io::ErrorKind::BrokenPipe {
            return Trouble::Pipe;
        }
        Trouble::about(name, words(error))
    }

    /// The line that reports it.
    pub fn into_line(self) -> Option<Vec<u8>> {
        match self {
            Trouble::Line(line) => Some(line),
            Trouble::Pipe => None,
        }
    }

    /// Reports it, and answers the status.
    pub fn tell(self) -> Status {
        if let Some(line) = self.into_line() {
            tell(&line);
        }
        Status::Trouble
    }
}

fn panic_line(panic: &PanicHookInfo) -> Vec<u8> {
    let mut line = b"a fault of the command".to_vec();
    if let Some(place) = panic.location() {
        line.extend(format!(", {place}").into_bytes());
    }
    if let Some(words) = panic.payload_as_str() {
        line.extend(b": ");
        line.extend(shown(OsStr::new(words)));
    }
    line
}

/// Has a panic, of whichever thread, end the command as other trouble does: with a line and the status.
pub fn report_panics() {
    panic::set_hook(Box::new(|panic| {
        tell(&panic_line(panic));
        process::exit(Status::Trouble as i32);
    }));
}

/// One line on standard error. Where even that fails, the status is all that is left.
pub fn tell(line: &[u8]) {
    let whole = [b"sawmauve: ", line, b"\n"].concat();
    let _ = io::stderr().write_all(&whole);
}

#[cfg(test)]
mod tests {
    use super::report_panics;
    use std::env;
    use std::process::Command;
    use std::thread;

    #[test]
    #[ignore = "ends its process: the test below runs it in one of its own"]
    fn panics() {
        report_panics();
        let _ = thread::spawn(|| panic!("of\nthis test")).join();
    }

    #[test]
    fn a_panic_of_a_thread_is_a_line_and_status_2() {
        let output = Command::new(env::current_exe().unwrap())
            .args(["--ignored", "--exact", "command::trouble::tests::panics"])
            .output()
            .unwrap();
        let line = String::from_utf8(output.stderr).unwrap();
        assert_eq!((output.status.code(), line.lines().count()), (Some(2), 1));
        assert!(line.starts_with("sawmauve: a fault of the command, src/command/trouble.rs:"));
        assert!(line.ends_with(": of?this test\n"), "{line}");
    }
}
