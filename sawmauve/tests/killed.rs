//! SIGKILL at random moments of a publish leaves the old file or the new one, whole.

mod common;

use common::*;
use std::fmt::Write;
use std::fs;
use std::path::Path;
use std::process::{Command, Stdio};
use std::thread::sleep;
use std::time::{Duration, Instant, SystemTime, UNIX_EPOCH};

const KILLS: usize = 50;

/// A log of 400 days of five minutes, all delivered.
fn large_log(value: u32) -> String {
    let mut text = "open 2024-05-01 400 5 1 0\n".to_string();
    for slot in 0..115_200 {
        writeln!(text, "delivery {slot} 1 {value} 0").unwrap();
    }
    text
}

/// The generator of W12, from the clock.
fn draws() -> impl FnMut() -> u32 {
    let mut x = SystemTime::now()
        .duration_since(UNIX_EPOCH)
        .unwrap()
        .subsec_nanos()
        | 1;
    move || {
        x ^= x << 13;
        x ^= x >> 17;
        x ^= x << 5;
        x
    }
}

fn publish(log: &Path, file: &Path) -> Command {
    let [log, file] = [log, file].map(|path| path.to_str().unwrap());
    let mut command = command(&["publish", log, "-o", file]);
    command.stdout(Stdio::null()).stderr(Stdio::null());
    command
}

/// The file of a log, and how long its publishing takes.
fn published(log: &Path, file: &Path) -> (Vec<u8>, Duration) {
    let begin = Instant::now();
    assert!(publish(log, file).status().unwrap().success());
    (fs::read(file).unwrap(), begin.elapsed())
}

/// Whether a publish that is killed after some time got as far as the file that is wanted.
fn is_there_when_killed(log: &Path, file: &Path, wanted: &[u8], after: Duration) -> bool {
    let before = fs::read(file).unwrap();
    let mut child = publish(log, file).spawn().unwrap();
    sleep(after);
    child.kill().unwrap();
    child.wait().unwrap();
    let left = fs::read(file).unwrap();
    assert!(left == before || left == wanted, "half a file");
    left == wanted
}

#[test]
fn killed_at_random_moments() {
    let folder = Folder::new();
    let logs = [("a.log", 100), ("b.log", 200)];
    let logs = logs.map(|(name, value)| folder.write(name, large_log(value)));
    let file = folder.path("a.file");
    let (old, whole) = published(&logs[0], &file);
    let (new, _) = published(&logs[1], &file);
    assert_ne!(old, new);
    let (mut draw, mut ended) = (draws(), [0; 2]);
    let turns = logs.iter().zip([&old, &new]).cycle().take(KILLS);
    for (log, wanted) in turns {
        let after = whole.mul_f64(1.25 * f64::from(draw()) / f64::from(u32::MAX));
        let there = is_there_when_killed(log, &file, wanted, after);
        ended[usize::from(there)] += 1;
    }
    println!(
        "after {KILLS} kills: {} times the old file, {} times the new one",
        ended[0], ended[1]
    );
    let others = folder
        .names()
        .into_iter()
        .filter(|name| !name.starts_with("."));
    assert_eq!(others.collect::<Vec<_>>(), ["a.file", "a.log", "b.log"]);
}
