//! The queries over columns in typed buffers, beside loops over typed slices.
use crate::batch::{self, Digest};
use crate::by_hand::Value;
use crate::library::{Way, evaluated};
use crate::readings::{READINGS, ROWS_OF_ARRAYS, medians, reading};
use crate::typed::{self, Numbers, Rows};
use std::hint::black_box;

/// A query: its number in the library, its rows, and the loop by hand, if one touches a row.
struct Query {
    name: &'static str,
    number: u8,
    batch: fn(usize) -> Vec<Value>,
    by_hand: Option<Loop>,
}

type Loop = for<'a> fn(&'a [Numbers]) -> Rows<'a>;

impl Query {
    const fn new(
        name: &'static str,
        number: u8,
        batch: fn(usize) -> Vec<Value>,
        by_hand: Option<Loop>,
    ) -> Query {
        Query {
            name,
            number,
            batch,
            by_hand,
        }
    }
}

const QUERIES: &[Query] = &[
    Query::new("range", 0, batch::numbers::<1>, Some(typed::range)),
    Query::new(
        "four ranges",
        13,
        batch::numbers::<4>,
        Some(typed::four_ranges),
    ),
    Query::new("CASE", 1, batch::numbers::<1>, Some(typed::case)),
    Query::new(
        "CASE of fields, runs",
        7,
        batch::keyed_in_runs,
        Some(typed::case_of_fields),
    ),
    Query::new(
        "CASE of fields, scattered",
        8,
        batch::keyed_scattered,
        Some(typed::case_of_fields),
    ),
    Query::new("zip", 9, batch::numbers::<3>, Some(typed::zip)),
    Query::new("fill_null", 10, batch::numbers::<1>, Some(typed::fill_null)),
    Query::new("sum", 11, batch::numbers::<2>, Some(typed::sum)),
    Query::new("is_null", 12, batch::numbers::<1>, Some(typed::is_null)),
    Query::new("item of a pack", 3, batch::numbers::<3>, None),
    Query::new("pack", 14, batch::numbers::<3>, None),
    Query::new("LIKE", 2, batch::texts, None),
    Query::new("in 4", 15, batch::numbers::<1>, Some(typed::members::<4>)),
    Query::new(
        "in 100",
        16,
        batch::numbers::<1>,
        Some(typed::members::<100>),
    ),
    Query::new(
        "in 1,000",
        17,
        batch::numbers::<1>,
        Some(typed::members::<1_000>),
    ),
];

/// Prints the table of the queries over so many rows.
pub fn table(rows: usize) {
    println!("| Query | Rows | Arrays (ns a row) | By hand (ns a row) | Ratio |");
    println!("|---|---:|---:|---:|---:|");
    for query in QUERIES {
        println!("{}", line(query, rows));
    }
}

fn line(query: &Query, rows: usize) -> String {
    let arrays = |repeats| evaluated(query.number, Way::Array, rows, repeats);
    let a_row = |milliseconds: f64| milliseconds * 1e6 / rows as f64;
    let Some(by_hand) = query.by_hand else {
        assert_eq!(
            arrays(1),
            evaluated(query.number, Way::Column, rows, 1),
            "{}",
            query.name
        );
        let (ours, _) = medians(READINGS, || reading(rows, ROWS_OF_ARRAYS, arrays), || 0.0);
        return format!("| {} | {rows} | {:.2} | | |", query.name, a_row(ours));
    };
    let hand = |repeats| through_hand(query, by_hand, rows, repeats);
    assert_eq!(arrays(1), hand(1), "{}", query.name);
    let (ours, hand) = medians(
        READINGS,
        || reading(rows, ROWS_OF_ARRAYS, arrays),
        || reading(rows, ROWS_OF_ARRAYS, hand),
    );
    format!(
        "| {} | {rows} | {:.2} | {:.2} | {:.2} |",
        query.name,
        a_row(ours),
        a_row(hand),
        ours / hand,
    )
}

fn through_hand(query: &Query, by_hand: Loop, rows: usize, repeats: u32) -> Digest {
    let fields = black_box(typed::fields(&(query.batch)(rows)));
    if repeats == 0 {
        return Digest::default();
    }
    for _ in 1..repeats {
        drop(black_box(by_hand(black_box(&fields))));
    }
    by_hand(&fields).digest()
}
