//! The queries over one size of batch: time and memory on both sides.
use crate::queries::{QUERIES, Query};
use crate::readings::{READINGS, bytes};

/// Prints the table of the queries over so many rows.
pub fn table(rows: usize) {
    println!(
        "| Query | Rows | Ours (ms) | By hand (ms) | Ratio | Our peak (bytes) | Peak by hand (bytes) |"
    );
    println!("|---|---:|---:|---:|---:|---:|---:|");
    for query in QUERIES {
        println!("{}", line(query, rows));
    }
}

fn line(query: &Query, rows: usize) -> String {
    let times = query.times(rows, READINGS);
    format!(
        "| {} | {rows} | {:.1} | {:.1} | {:.2} | {} | {} |",
        query.name,
        times.ours,
        times.by_hand,
        times.ratio(),
        bytes(|repeats| query.through_library(rows, repeats)),
        bytes(|repeats| query.through_hand(rows, repeats)),
    )
}
