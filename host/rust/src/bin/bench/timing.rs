//! Least times of two jobs that take turns, so that what else the machine does falls on both.

use crate::pair::Pair;
use std::time::{Duration, Instant};

/// Long enough that reading the clock is no part of it.
const BATCH: Duration = Duration::from_micros(400);
const ROUNDS: usize = 500;

/// Nanoseconds of one go at each job, in the quickest of many batches.
pub fn least_of_batches(mut jobs: Pair<impl FnMut()>) -> Pair<f64> {
    let times = times_in_a_batch(&mut jobs.engine);
    let batches = jobs.map(|mut job| move || (0..times).for_each(|_| job()));
    least(batches, ROUNDS).map(|time| time / times as f64)
}

/// Nanoseconds of the quickest go at each job.
pub fn least(mut jobs: Pair<impl FnMut()>, rounds: usize) -> Pair<f64> {
    let mut least = Pair { engine: Duration::MAX, twin: Duration::MAX };
    for _ in 0..rounds {
        least.engine = least.engine.min(time(&mut jobs.engine));
        least.twin = least.twin.min(time(&mut jobs.twin));
    }
    least.map(|time| time.as_nanos() as f64)
}

fn time(job: &mut impl FnMut()) -> Duration {
    let started = Instant::now();
    job();
    started.elapsed()
}

fn times_in_a_batch(job: &mut impl FnMut()) -> u32 {
    let mut times = 1;
    while time(&mut || (0..times).for_each(|_| job())) < BATCH {
        times *= 2;
    }
    times
}
