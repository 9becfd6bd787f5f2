//! The queries over growing batches.
use crate::memory;
use crate::queries::{QUERIES, Query, Times};
use crate::readings::FEW_READINGS;

/// The numbers of rows.
const SIZES: [usize; 4] = [10_000, 100_000, 1_000_000, 10_000_000];

/// What a query takes is told by that part of its rows.
const PART: usize = 100;

/// Prints the table of the queries at all sizes, with a dash where the memory doesn't suffice.
pub fn table() {
    let sizes = SIZES.map(|rows| rows.to_string()).join(" | ");
    println!("| Query | Ours (ms): {sizes} | Ratio: {sizes} |");
    println!("|---|{}", "---:|".repeat(2 * SIZES.len()));
    for query in QUERIES {
        let times =
            SIZES.map(|rows| has_room(query, rows).then(|| query.times(rows, FEW_READINGS)));
        println!(
            "| {} | {} | {} |",
            query.name,
            cells(times.map(|times| times.map(|times| times.ours))),
            cells(times.map(|times| times.map(Times::ratio))),
        );
    }
}

fn cells(numbers: [Option<f64>; SIZES.len()]) -> String {
    numbers
        .map(|number| number.map_or(String::from("-"), |number| format!("{number:.2}")))
        .join(" | ")
}

/// Whether the system has the memory that the query takes over so many rows.
fn has_room(query: &Query, rows: usize) -> bool {
    let needed = PART * query.peak(rows / PART);
    memory::available().is_none_or(|available| needed < available)
}
