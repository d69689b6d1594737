//! Medians of times, and their rows.

use std::hint::black_box;
use std::time::{Duration, Instant};

use crosscheck::number::narrowed;
use crosscheck::second::head::Head;

/// Runs of each measurement; the median counts.
pub const RUNS: usize = 9;

pub fn timed<T>(work: impl FnOnce() -> T) -> Duration {
    let start = Instant::now();
    black_box(work());
    start.elapsed()
}

/// What the clock itself takes, which a book of a few items would show.
fn clock() -> Duration {
    let mut runs: Vec<Duration> = (0..1001).map(|_| timed(|| ())).collect();
    runs.sort();
    runs[runs.len() / 2]
}

pub type Sides<S> = [(&'static str, S); 2];

/// Median time per item in ns for each side, without the clock's own; the sides take
/// turns, so that a busy moment of the machine meets both.
pub fn medians<S: Copy, const N: usize>(
    sides: &[(&'static str, S); N],
    items: usize,
    repeats: usize,
    mut measure: impl FnMut(S) -> Duration,
) -> [Option<f64>; N] {
    let clock = clock() * narrowed(repeats);
    let mut runs = [const { Vec::new() }; N];
    for _ in 0..RUNS {
        for (&(_, side), runs) in sides.iter().zip(&mut runs) {
            let run: Duration = (0..repeats).map(|_| measure(side)).sum();
            runs.push(run.saturating_sub(clock));
        }
    }
    let median = |mut runs: Vec<Duration>| {
        runs.sort();
        let all = (items * repeats) as f64;
        (items > 0).then(|| runs[RUNS / 2].as_nanos() as f64 / all)
    };
    runs.map(median)
}

pub fn print_row(book: &str, head: &Head, call: &str, times: &[Option<f64>]) {
    print!(
        "{book:<15} {:>4} {:>3}  {call:<11}",
        head.days, head.interval
    );
    for time in times {
        match time {
            Some(time) => print!(" {time:>10.2}"),
            None => print!(" {:>10}", "-"),
        }
    }
    if let [Some(second), Some(host)] = times {
        print!(" {:>10.2}", host / second);
    }
    println!();
}
