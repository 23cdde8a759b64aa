//! How long calls take beside each other.

use std::hint::black_box;
use std::time::{Duration, Instant};

use compare::refusal::WORK_WORDS;

/// A call on a work area; the answer is its refusal.
pub type Call<'a> = &'a mut dyn FnMut(&mut [u32]) -> u32;

/// The shortest time of each call, in milliseconds. For so long they take turns, so that all see the same machine; all must be accepted.
pub fn shortest<const N: usize>(span: Duration, mut calls: [Call; N]) -> [f64; N] {
    let mut best = [Duration::MAX; N];
    let start = Instant::now();
    while start.elapsed() < span {
        for (best, call) in best.iter_mut().zip(&mut calls) {
            *best = timed(call).min(*best);
        }
    }
    best.map(|time| time.as_secs_f64() * 1e3)
}

/// How long an accepted call takes.
fn timed(call: &mut Call) -> Duration {
    let mut work = [7; WORK_WORDS];
    let start = Instant::now();
    let refusal = call(black_box(&mut work));
    let took = start.elapsed();
    assert_eq!(refusal, 0);
    took
}
