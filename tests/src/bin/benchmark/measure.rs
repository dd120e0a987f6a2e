//! Medians of calls that alternate.
//!
//! What is compared alternates in short batches in one run and uses the same slices, so
//! that the noise of the machine and the place in memory meet all alike. The time of a call
//! is the median over many batches of the mean in a batch; a ratio is that of two such
//! medians.

use std::time::{Duration, Instant};

use crate::calls::Call;
use crate::slices::Slices;

/// The number of batches of each call; the median is taken over them.
pub const BATCHES: usize = 501;
/// The least time of a batch; the calls in it are averaged.
const BATCH_TIME: Duration = Duration::from_micros(200);

/// The number of calls in a batch, from a second one, as slices are new in the first.
fn calls_in_batch(call: &Call, slices: &mut Slices) -> u32 {
    let mut calls = 0;
    for _ in 0..2 {
        let start = Instant::now();
        calls = 0;
        while start.elapsed() < BATCH_TIME {
            call(slices);
            calls += 1;
        }
    }
    calls
}

fn median(mut times: Vec<f64>) -> f64 {
    times.sort_by(f64::total_cmp);
    times[times.len() / 2]
}

/// The median of each call in nanoseconds; their batches alternate.
pub fn medians(calls: &[Call]) -> Vec<f64> {
    let mut slices = Slices::new();
    let count = |call| calls_in_batch(call, &mut slices);
    let counts: Vec<u32> = calls.iter().map(count).collect();
    let mut times = vec![Vec::with_capacity(BATCHES); calls.len()];
    for _ in 0..BATCHES {
        for (place, call) in calls.iter().enumerate() {
            let start = Instant::now();
            for _ in 0..counts[place] {
                call(&mut slices);
            }
            let nanoseconds = start.elapsed().as_secs_f64() * 1e9;
            times[place].push(nanoseconds / f64::from(counts[place]));
        }
    }
    times.into_iter().map(median).collect()
}
