//! A filter of two fields of a hundred: by a scan, and evaluated over the whole batch.
use crate::batch::Digest;
use crate::clock::milliseconds;
use crate::library::{Way, evaluated};
use crate::readings::{READINGS, bytes, medians};

/// The number of the filter in the library.
const WIDE: u8 = 4;

/// Prints the table of the filter over so many rows.
pub fn table(rows: usize) {
    println!(
        "| Query | Rows | Scan (ms) | Whole batch (ms) | Ratio | Peak of the scan (bytes) | Peak over the whole (bytes) |"
    );
    println!("|---|---:|---:|---:|---:|---:|---:|");
    let scan = |repeats| evaluated(WIDE, Way::Scan, rows, repeats);
    let whole = |repeats| evaluated(WIDE, Way::Column, rows, repeats);
    assert_eq!(scan(1), whole(1), "a filter of two fields");
    let (by_scan, by_whole) = medians(READINGS, || reading(scan), || reading(whole));
    println!(
        "| two fields of a hundred | {rows} | {by_scan:.1} | {by_whole:.1} | {:.2} | {} | {} |",
        by_scan / by_whole,
        bytes(scan),
        bytes(whole),
    );
}

/// The milliseconds of one evaluation, and no more, since the batch is large.
fn reading(call: impl Fn(u32) -> Digest) -> f64 {
    let none = milliseconds(|| call(0));
    milliseconds(|| call(1)) - none
}
