//! The table that the benchmarks print: for each row the shortest of several runs of either side, and the ratio.

use std::time::{Duration, Instant};

const RUNS: usize = 5;

fn timed(run: &dyn Fn() -> u64) -> (u64, Duration) {
    let began = Instant::now();
    let answer = run();
    (answer, began.elapsed())
}

pub fn head() {
    println!("{:<44} {:>12} {:>12} {:>7}", "shortest of 5 runs", "plain Rust", "library", "ratio");
}

/// Both sides do the same work, in turns, and must answer the same.
pub fn row(name: &str, plain: &dyn Fn() -> u64, library: &dyn Fn() -> u64) {
    let (mut slow, mut fast) = (Duration::MAX, Duration::MAX);
    for _ in 0..RUNS {
        let (theirs, time) = timed(plain);
        slow = slow.min(time);
        let (ours, time) = timed(library);
        fast = fast.min(time);
        assert_eq!(ours, theirs, "{name}");
    }
    let (slow, fast) = (slow.as_secs_f64() * 1e3, fast.as_secs_f64() * 1e3);
    println!("{name:<44} {slow:>9.1} ms {fast:>9.1} ms {:>7.2}", fast / slow);
}

/// The library's side alone, where the other would take too long.
pub fn alone(name: &str, library: &dyn Fn() -> u64) {
    let fast = (0..RUNS).map(|_| timed(library).1).min().unwrap_or_default();
    println!("{name:<44} {:>12} {:>9.1} ms", "", fast.as_secs_f64() * 1e3);
}
