//! Source text of conjunctions: how fast it is read and written, beside `Display`.
use crate::clock::best;

/// How many comparisons the conjunctions join.
const SIZES: [usize; 4] = [10, 1_000, 10_000, 100_000];

/// The works, in the order of their numbers in the library.
const WORKS: [&str; 3] = ["read", "written", "`Display`"];

unsafe extern "C" {
    fn vx_text(size: usize, work: u8, repeats: u32, bytes: *mut u64) -> u8;
}

/// Prints the megabytes of source text that each work goes through in a second.
pub fn table() {
    println!(
        "| Conjuncts | Bytes | {} (MB/s) |",
        WORKS.join(" (MB/s) | ")
    );
    println!("|---:|---:|---:|---:|---:|");
    for size in SIZES {
        let bytes = through_library(size, 0, 0);
        let cells: Vec<String> = (0..)
            .zip(WORKS)
            .map(|(work, _)| best(|repeats| through_library(size, work, repeats)))
            .map(|once| format!("{:.1}", bytes as f64 / 1e3 / once))
            .collect();
        println!("| {size} | {bytes} | {} |", cells.join(" | "));
    }
}

/// Makes the conjunction and its text, and does the work so often, for the bytes of the text.
fn through_library(size: usize, work: u8, repeats: u32) -> u64 {
    let mut bytes = 0;
    let status = unsafe { vx_text(size, work, repeats, &mut bytes) };
    assert_eq!(status, 0, "{size} conjuncts");
    bytes
}
