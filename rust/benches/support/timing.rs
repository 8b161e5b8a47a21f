//! Measured times, and ratios of them.

use std::time::{Duration, Instant};

/// The best of some runs: what is left when nothing else disturbs.
pub fn time<T>(mut work: impl FnMut() -> T) -> (T, Duration) {
    let mut best = Duration::MAX;
    let mut result = None;
    let begun = Instant::now();
    for _ in 0..200 {
        let at = Instant::now();
        let value = work();
        best = best.min(at.elapsed());
        result = Some(value);
        if begun.elapsed() > Duration::from_millis(1_500) {
            break;
        }
    }
    (result.expect("at least one run"), best)
}

/// Prints what was measured, and how often that of a baseline it takes.
pub fn row(what: &str, taken: Duration, baseline: Option<(&str, Duration)>) {
    let micros = taken.as_secs_f64() * 1e6;
    match baseline {
        Some((name, other)) => {
            let ratio = taken.as_secs_f64() / other.as_secs_f64();
            println!("  {what:<34} {micros:>12.1} us   {ratio:>8.2} x {name} ({:.1} us)", other.as_secs_f64() * 1e6);
        }
        None => println!("  {what:<34} {micros:>12.1} us"),
    }
}
