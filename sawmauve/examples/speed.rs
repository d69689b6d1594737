//! Times the command on a log, and the library's own calls on its bytes: the best of so many turns, in milliseconds, and their ratio.

use sawmauve::{Error, Log, calls};
use std::io::{self, Write};
use std::process::{Command, ExitCode, Stdio};
use std::time::{Duration, Instant};
use std::{env, fs};

/// What the library does for a publish: the log is read and played, and the book's file is written and checked.
fn library(bytes: &[u8]) -> Result<u32, Error> {
    let played = Log::read(bytes)?.play()?;
    Ok(calls::check(&played.book.publish()?))
}

/// How long the work took, where it was done.
fn time(work: impl FnOnce() -> bool) -> Option<Duration> {
    let begin = Instant::now();
    work().then(|| begin.elapsed())
}

/// The best times of the library and of the command, which take turns.
fn best(program: &str, log: &str, bytes: &[u8], turns: usize) -> Option<(Duration, Duration)> {
    let mut command = Command::new(program);
    command
        .args(["publish", log, "-o", "-"])
        .stdout(Stdio::null())
        .stderr(Stdio::null());
    let mut best = (Duration::MAX, Duration::MAX);
    for _ in 0..turns {
        best.0 = best.0.min(time(|| library(bytes) == Ok(0))?);
        best.1 = best.1.min(time(|| {
            command.status().is_ok_and(|status| status.success())
        })?);
    }
    Some(best)
}

fn compared(program: &str, log: &str, turns: usize) -> Option<String> {
    let bytes = fs::read(log).ok()?;
    let (own, whole) = best(program, log, &bytes, turns)?;
    let (own, whole) = (own.as_secs_f64() * 1e3, whole.as_secs_f64() * 1e3);
    let ratio = whole / own;
    Some(format!(
        "{} bytes: library {own:.2} ms, command {whole:.2} ms, ratio {ratio:.2}",
        bytes.len()
    ))
}

fn main() -> ExitCode {
    let words: Vec<String> = env::args().skip(1).collect();
    let told = match &words[..] {
        [program, log, turns] => turns
            .parse()
            .ok()
            .and_then(|turns| compared(program, log, turns)),
        _ => None,
    };
    match told {
        Some(line) => match writeln!(io::stdout(), "{line}") {
            Ok(()) => ExitCode::SUCCESS,
            Err(_) => ExitCode::from(2),
        },
        None => {
            eprintln!("speed wants the command, a log that it publishes, and how many turns");
            ExitCode::from(2)
        }
    }
}
