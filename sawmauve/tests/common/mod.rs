//! What the tests of the command share: running it, and folders that go when they are done with.

#![allow(dead_code, reason = "not every test uses all of it")]

use std::ffi::OsStr;
use std::fs;
use std::path::{Path, PathBuf};
use std::process::{Command, Output, Stdio};
use std::sync::atomic::{AtomicU32, Ordering};

/// The names of the sample logs.
pub const SAMPLES: [&str; 6] = ["quiet-day", "wrap", "month", "drowned", "fogged", "marina"];

/// The texts of an export, as options.
pub const FIELDS: [(&str, &str); 16] = [
    ("nmi", "6123456789"),
    ("from", "FROM"),
    ("to", "TO"),
    ("configuration", "E1"),
    ("register", "1"),
    ("suffix", "E1"),
    ("stream", "N1"),
    ("serial", "SN1"),
    ("next-read", "20240701"),
    ("reason", "79"),
    ("created", "20240602093000"),
    ("method-2", "14"),
    ("method-3", "14"),
    ("method-5", "7"),
    ("method-18", "65"),
    ("method-19", "66"),
];

/// The command with its standard streams closed off or caught.
pub fn command<S: AsRef<OsStr>>(words: &[S]) -> Command {
    let mut command = Command::new(env!("CARGO_BIN_EXE_sawmauve"));
    command.args(words).stdin(Stdio::null());
    command
}

/// Runs the command to its end.
pub fn run<S: AsRef<OsStr>>(words: &[S]) -> Output {
    command(words).output().unwrap()
}

/// Runs a line of the shell, in which $S is the command.
pub fn shell(line: &str) -> Output {
    let mut command = Command::new("sh");
    command
        .env("S", env!("CARGO_BIN_EXE_sawmauve"))
        .args(["-c", line]);
    command
        .current_dir(home())
        .stdin(Stdio::null())
        .output()
        .unwrap()
}

/// The folder of the package.
pub fn home() -> PathBuf {
    PathBuf::from(env!("CARGO_MANIFEST_DIR"))
}

/// A sample log.
pub fn log(name: &str) -> PathBuf {
    home().join("../examples").join(format!("{name}.log"))
}

/// What the programs of the book wrote of a sample log.
pub fn expected(name: &str) -> PathBuf {
    home().join("tests/expected").join(name)
}

/// Asserts what a run came to.
#[track_caller]
pub fn ends(output: &Output, status: i32, out: &[u8], err: &str) {
    assert_eq!(String::from_utf8_lossy(&output.stderr), err);
    assert_eq!(output.status.code(), Some(status));
    assert!(
        output.stdout == out,
        "standard output: {:?}",
        String::from_utf8_lossy(&output.stdout)
    );
}

/// Asserts status 2, nothing on standard output and one line on standard error that has these words.
#[track_caller]
pub fn is_trouble(output: &Output, words: &str) {
    let err = String::from_utf8_lossy(&output.stderr);
    assert_eq!(output.status.code(), Some(2), "{err}");
    assert!(
        err.starts_with("sawmauve: ") && err.contains(words),
        "{err}"
    );
    assert_eq!(err.matches('\n').count(), 1, "{err}");
    assert!(output.stdout.is_empty());
}

/// A folder of a test's own.
pub struct Folder(pub PathBuf);

impl Folder {
    pub fn new() -> Folder {
        static NEXT: AtomicU32 = AtomicU32::new(0);
        let number = NEXT.fetch_add(1, Ordering::Relaxed);
        let name = format!("sawmauve-test-{}-{number}", std::process::id());
        let path = std::env::temp_dir().join(name);
        fs::create_dir_all(&path).unwrap();
        Folder(path)
    }

    pub fn path(&self, name: impl AsRef<Path>) -> PathBuf {
        self.0.join(name)
    }

    pub fn write(&self, name: impl AsRef<Path>, bytes: impl AsRef<[u8]>) -> PathBuf {
        let path = self.path(name);
        fs::write(&path, bytes).unwrap();
        path
    }

    /// The names in it, sorted.
    pub fn names(&self) -> Vec<String> {
        let entries = fs::read_dir(&self.0).unwrap();
        let mut names: Vec<String> = entries
            .map(|entry| entry.unwrap().file_name().to_string_lossy().into_owned())
            .collect();
        names.sort();
        names
    }
}

impl Drop for Folder {
    fn drop(&mut self) {
        let _ = fs::remove_dir_all(&self.0);
    }
}
