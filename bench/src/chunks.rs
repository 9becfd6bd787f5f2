//! A range that is looked for in chunks of numbers, with statistics of each and without; and verdicts.
use crate::clock::best;

/// How many chunks there are, of how many rows.
const CHUNKS: usize = 1_000;
const ROWS: usize = 10_000;

/// The orders in which the numbers stand, in the order of their numbers in the library.
const ORDERS: [&str; 2] = ["sorted", "scattered"];

/// What is known of each chunk, by its number in the library.
const LENGTH: u8 = 0;
const BOUNDS: u8 = 1;

/// What is found, as the library writes it.
#[repr(C)]
#[derive(Clone, Copy, Default, PartialEq, Eq, Debug)]
struct Found {
    rows: u64,
    read: u64,
}

/// A search of all chunks.
#[derive(Clone, Copy)]
struct Search {
    order: u8,
    known: u8,
}

unsafe extern "C" {
    fn vx_found(
        chunks: usize,
        rows: usize,
        order: u8,
        known: u8,
        repeats: u32,
        last: *mut Found,
    ) -> u8;
    fn vx_verdicts(repeats: u32, unknown: *mut u64) -> u8;
}

/// Prints what the search takes where the numbers are sorted and where they are scattered, and then
/// what a verdict takes.
pub fn tables() {
    println!("| Numbers | Rows found | Chunks read | Pruned (ms) | All read (ms) | Ratio |");
    println!("|---|---:|---:|---:|---:|---:|");
    for (order, name) in (0..).zip(ORDERS) {
        let [pruned, all] = [BOUNDS, LENGTH].map(|known| Search { order, known });
        let (found, found_in_all) = (pruned.through_library(1), all.through_library(1));
        assert_eq!(found.rows, found_in_all.rows, "{name}");
        assert_eq!(found_in_all.read, CHUNKS as u64, "{name}");
        let [with, without] = [pruned, all].map(Search::best);
        println!(
            "| {name} | {} | {} of {CHUNKS} | {with:.2} | {without:.1} | {:.4} |",
            found.rows,
            found.read,
            with / without,
        );
    }
    println!();
    println!("A verdict of ten conjuncts takes {:.0} ns.", verdict());
}

impl Search {
    /// Makes the chunks, and searches them so often.
    fn through_library(self, repeats: u32) -> Found {
        let mut found = Found::default();
        let status = unsafe { vx_found(CHUNKS, ROWS, self.order, self.known, repeats, &mut found) };
        assert_eq!(status, 0, "a range in chunks");
        found
    }

    /// The milliseconds of one search.
    fn best(self) -> f64 {
        best(|searches| self.through_library(searches))
    }
}

/// The nanoseconds of a verdict.
fn verdict() -> f64 {
    best(verdicts_of) * 1e6
}

fn verdicts_of(repeats: u32) {
    let mut unknown = 0;
    let status = unsafe { vx_verdicts(repeats, &mut unknown) };
    assert_eq!((status, unknown), (0, u64::from(repeats)), "verdicts");
}
