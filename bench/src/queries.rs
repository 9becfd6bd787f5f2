//! The queries: each through the library, and written by hand.
use crate::batch::{self, Digest};
use crate::by_hand::{self, Value};
use crate::library::{Way, evaluated};
use crate::memory;
use crate::readings::{ROWS, medians, reading};
use std::hint::black_box;

/// A query: its number in the library, and what is written by hand.
pub struct Query {
    pub name: &'static str,
    number: u8,
    batch: fn(usize) -> Vec<Value>,
    by_hand: fn(&[Value]) -> Vec<Value>,
}

/// The queries, as their table has them.
pub const QUERIES: &[Query] = &[
    Query {
        name: "range",
        number: 0,
        batch: batch::numbers::<1>,
        by_hand: by_hand::range,
    },
    Query {
        name: "CASE",
        number: 1,
        batch: batch::numbers::<1>,
        by_hand: by_hand::case,
    },
    Query {
        name: "LIKE",
        number: 2,
        batch: batch::texts,
        by_hand: by_hand::like,
    },
    Query {
        name: "LIKE, any pattern",
        number: 2,
        batch: batch::texts,
        by_hand: by_hand::like_any,
    },
    Query {
        name: "item of a pack",
        number: 3,
        batch: batch::numbers::<3>,
        by_hand: by_hand::item,
    },
    Query {
        name: "CASE, runs",
        number: 5,
        batch: batch::keyed_in_runs,
        by_hand: by_hand::case_with_sum,
    },
    Query {
        name: "CASE, scattered",
        number: 6,
        batch: batch::keyed_scattered,
        by_hand: by_hand::case_with_sum,
    },
    Query {
        name: "CASE of fields, runs",
        number: 7,
        batch: batch::keyed_in_runs,
        by_hand: by_hand::case_of_fields,
    },
    Query {
        name: "CASE of fields, scattered",
        number: 8,
        batch: batch::keyed_scattered,
        by_hand: by_hand::case_of_fields,
    },
    Query {
        name: "zip",
        number: 9,
        batch: batch::numbers::<3>,
        by_hand: by_hand::zip,
    },
    Query {
        name: "fill_null",
        number: 10,
        batch: batch::numbers::<1>,
        by_hand: by_hand::fill_null,
    },
    Query {
        name: "sum",
        number: 11,
        batch: batch::numbers::<2>,
        by_hand: by_hand::sum,
    },
    Query {
        name: "is_null",
        number: 12,
        batch: batch::numbers::<1>,
        by_hand: by_hand::is_null,
    },
    Query {
        name: "four ranges",
        number: 13,
        batch: batch::numbers::<4>,
        by_hand: by_hand::four_ranges,
    },
    Query {
        name: "pack",
        number: 14,
        batch: batch::numbers::<3>,
        by_hand: by_hand::pack,
    },
    Query {
        name: "in 4",
        number: 15,
        batch: batch::numbers::<1>,
        by_hand: by_hand::members::<4>,
    },
    Query {
        name: "in 100",
        number: 16,
        batch: batch::numbers::<1>,
        by_hand: by_hand::members::<100>,
    },
    Query {
        name: "in 1,000",
        number: 17,
        batch: batch::numbers::<1>,
        by_hand: by_hand::members::<1_000>,
    },
];

/// The milliseconds of an evaluation.
#[derive(Clone, Copy)]
pub struct Times {
    pub ours: f64,
    pub by_hand: f64,
}

impl Times {
    /// How many times the time by hand ours is.
    pub fn ratio(self) -> f64 {
        self.ours / self.by_hand
    }
}

impl Query {
    /// Makes the batch and evaluates the query so often, for the digest of the last column.
    pub fn through_library(&self, rows: usize, repeats: u32) -> Digest {
        evaluated(self.number, Way::Column, rows, repeats)
    }

    /// The same, by hand.
    pub fn through_hand(&self, rows: usize, repeats: u32) -> Digest {
        let batch = black_box((self.batch)(rows));
        if repeats == 0 {
            return Digest::default();
        }
        for _ in 1..repeats {
            drop(black_box((self.by_hand)(black_box(&batch))));
        }
        Digest::of(&(self.by_hand)(&batch))
    }

    /// The times over so many rows, by so many readings. Both sides are warm and agree before the first
    /// one.
    pub fn times(&self, rows: usize, readings: usize) -> Times {
        let library = |repeats| self.through_library(rows, repeats);
        let hand = |repeats| self.through_hand(rows, repeats);
        assert_eq!(library(1), hand(1), "{}", self.name);
        let (ours, by_hand) = medians(
            readings,
            || reading(rows, ROWS, library),
            || reading(rows, ROWS, hand),
        );
        Times { ours, by_hand }
    }

    /// The bytes at the peak of an evaluation over so many rows, with its batch, on the side that takes
    /// more.
    pub fn peak(&self, rows: usize) -> usize {
        let library = memory::peak(|| _ = black_box(self.through_library(rows, 1)));
        let hand = memory::peak(|| _ = black_box(self.through_hand(rows, 1)));
        library.max(hand)
    }
}
