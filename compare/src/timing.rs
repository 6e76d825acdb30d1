//! Times of calls that take turns. Nothing here fails: a time is no test.

use std::time::{Duration, Instant};

/// Rounds, of which the fastest counts; the calls take turns.
const ROUNDS: usize = 40;
/// How long a round takes about.
const ROUND: Duration = Duration::from_millis(5);
/// Long calls get fewer rounds, once so much time has gone by.
const FEWEST_ROUNDS: usize = 3;
const PATIENCE: Duration = Duration::from_secs(6);

/// The time of one call, of so many.
fn time_of(times: usize, call: &mut dyn FnMut()) -> Duration {
    let start = Instant::now();
    for _ in 0..times {
        call();
    }
    start.elapsed() / times as u32
}

/// As many calls as fill a round.
fn calls_in_a_round(call: &mut dyn FnMut()) -> usize {
    let mut times = 1;
    while time_of(times, call) * (times as u32) < ROUND {
        times *= 2;
    }
    times
}

/// The fastest time of each call.
pub fn fastest<const N: usize>(mut calls: [&mut dyn FnMut(); N]) -> [Duration; N] {
    let times = calls.each_mut().map(|call| calls_in_a_round(*call));
    let mut best = [Duration::MAX; N];
    let start = Instant::now();
    for round in 0..ROUNDS {
        if FEWEST_ROUNDS <= round && PATIENCE <= start.elapsed() {
            break;
        }
        for k in 0..N {
            best[k] = best[k].min(time_of(times[k], calls[k]));
        }
    }
    best
}

pub fn ratio(ours: Duration, theirs: Duration) -> f64 {
    ours.as_secs_f64() / theirs.as_secs_f64()
}

pub fn percent(part: Duration, whole: Duration) -> f64 {
    ratio(part, whole) * 100.0
}
