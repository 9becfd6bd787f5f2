//! What an evaluation takes, read off runs that differ only in how often they evaluate.
use crate::batch::Digest;
use crate::clock::milliseconds;
use crate::memory;
use std::hint::black_box;

/// Readings for a median, and fewer of them for a table that takes long.
pub const READINGS: usize = 5;
pub const FEW_READINGS: usize = 3;

/// The rows that the evaluations of a reading go over together: of arrays more, since making the batch
/// takes as long as a hundred evaluations over one. And the fewest evaluations.
pub const ROWS: usize = 10_000_000;
pub const ROWS_OF_ARRAYS: usize = 400_000_000;
const FEWEST: usize = 5;

/// The medians of so many readings of two sides, each of the one followed by one of the other.
pub fn medians(readings: usize, one: impl Fn() -> f64, other: impl Fn() -> f64) -> (f64, f64) {
    let (one, other) = (0..readings).map(|_| (one(), other())).unzip();
    (median(one), median(other))
}

fn median(mut readings: Vec<f64>) -> f64 {
    readings.sort_by(f64::total_cmp);
    readings[readings.len() / 2]
}

/// The milliseconds of one evaluation over so many rows, by a run with one and one with as many more as
/// go over `all` rows together.
pub fn reading(rows: usize, all: usize, call: impl Fn(u32) -> Digest) -> f64 {
    let evaluations = (all / rows.max(1)).max(FEWEST) as u32;
    let one = milliseconds(|| call(1));
    let more = milliseconds(|| call(1 + evaluations));
    (more - one) / f64::from(evaluations)
}

/// The bytes at the peak of one evaluation, beyond those of its batch.
pub fn bytes(call: impl Fn(u32) -> Digest) -> usize {
    let peak = |repeats| memory::peak(|| _ = black_box(call(repeats)));
    peak(1) - peak(0)
}
