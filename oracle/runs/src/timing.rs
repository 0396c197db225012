//! Times two sides in turn, in one run, so that what else the machine does meets both.
use std::time::{Duration, Instant};

/// A median, with the 10th and the 90th percentile.
#[derive(Clone, Copy)]
pub struct Spread {
    pub low: f64,
    pub median: f64,
    pub high: f64,
}

/// Nanoseconds of `ours` and of `theirs` for each unit of work, and how many times as long ours takes.
pub struct Timed {
    pub ours: Spread,
    pub theirs: Spread,
    pub ratio: Spread,
}

/// Runs both sides `rounds` times, the one that goes first by turns.
pub fn interleaved(rounds: usize, units: usize, mut ours: impl FnMut(), mut theirs: impl FnMut()) -> Timed {
    interleaved_times(rounds, units, || elapsed(&mut ours), || elapsed(&mut theirs))
}

/// The same, of sides that say by themselves how long they took.
pub fn interleaved_times(
    rounds: usize,
    units: usize,
    mut ours: impl FnMut() -> Duration,
    mut theirs: impl FnMut() -> Duration,
) -> Timed {
    let per_unit = |took: Duration| took.as_nanos() as f64 / units as f64;
    let (mut first, mut second) = (Vec::new(), Vec::new());
    for round in 0..rounds {
        if round % 2 == 0 {
            first.push(per_unit(ours()));
            second.push(per_unit(theirs()));
        } else {
            second.push(per_unit(theirs()));
            first.push(per_unit(ours()));
        }
    }
    let ratios = first.iter().zip(&second).map(|(a, b)| a / b).collect();
    Timed { ours: Spread::of(first), theirs: Spread::of(second), ratio: Spread::of(ratios) }
}

/// How long the work takes.
pub fn elapsed(mut work: impl FnMut()) -> Duration {
    let start = Instant::now();
    work();
    start.elapsed()
}

impl Spread {
    fn of(mut values: Vec<f64>) -> Self {
        values.sort_by(f64::total_cmp);
        let percentile = |part: usize| values[(values.len() - 1) * part / 100];
        Self { low: percentile(10), median: percentile(50), high: percentile(90) }
    }
}
