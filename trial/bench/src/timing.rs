//! The time of a piece of work.

use std::hint::black_box;
use std::time::{Duration, Instant};

/// How long one measurement lasts at least, so that the clock's own steps do not show.
const LEAST: Duration = Duration::from_millis(8);

/// Works on its own input and leaves an answer.
pub type Work<'a> = Box<dyn FnMut() -> usize + 'a>;

/// The least time of one run of each piece of work, in nanoseconds. They take turns, so that whatever slows the machine slows
/// all of them, and the least of many turns is what the work itself costs.
pub fn least(works: &mut [Work<'_>], rounds: usize) -> Vec<f64> {
    let runs: Vec<u32> = works.iter_mut().map(runs_of).collect();
    let mut best = vec![f64::INFINITY; works.len()];
    for _ in 0..rounds {
        for ((work, &runs), best) in works.iter_mut().zip(&runs).zip(&mut best) {
            let time = timed(work, runs).as_secs_f64() * 1e9 / f64::from(runs);
            *best = best.min(time);
        }
    }
    best
}

/// How many runs make a measurement.
fn runs_of(work: &mut Work<'_>) -> u32 {
    let mut runs = 1;
    while timed(work, runs) < LEAST {
        runs *= 2;
    }
    runs
}

fn timed(work: &mut Work<'_>, runs: u32) -> Duration {
    let start = Instant::now();
    for _ in 0..runs {
        black_box(work());
    }
    start.elapsed()
}
