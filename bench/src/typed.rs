//! The queries as they would be written by hand over typed slices, with a bit a row for validity and
//! for truth values.
use crate::batch::Digest;
use crate::by_hand::{Value, listed};
use std::borrow::Cow;

/// Bits of rows, in words of 64.
pub type Bits = Vec<u64>;

/// A field of a batch: its values, and the bits of the rows that aren't null.
pub struct Numbers {
    values: Vec<i32>,
    valid: Bits,
}

/// What a loop gives: its rows, and the bits of those that aren't null, none where no row is null.
pub enum Rows<'a> {
    Numbers(Cow<'a, [i32]>, Option<Cow<'a, [u64]>>),
    Truths(Bits, Option<Cow<'a, [u64]>>, usize),
}

/// The fields of the rows, by place.
pub fn fields(rows: &[Value]) -> Vec<Numbers> {
    let count = match rows.first() {
        Some(Value::Struct(items)) => items.len(),
        _ => 0,
    };
    (0..count).map(|place| numbers(rows, place)).collect()
}

fn numbers(rows: &[Value], place: usize) -> Numbers {
    let item = |row: &Value| match row {
        Value::Struct(items) => match items[place] {
            Value::Int(n) => Some(i32::try_from(n).expect("an i32")),
            _ => None,
        },
        _ => None,
    };
    Numbers {
        values: rows.iter().map(|row| item(row).unwrap_or(0)).collect(),
        valid: bits(rows.len(), |i| item(&rows[i]).is_some()),
    }
}

/// `(($.x >= 10i32) and ($.x <= 500000i32))`.
pub fn range(fields: &[Numbers]) -> Rows<'_> {
    let x = &fields[0];
    truths(x.values.len(), Some(Cow::Borrowed(&x.valid)), |i| {
        (x.values[i] >= 10) & (x.values[i] <= 500_000)
    })
}

/// `(($.f0 >= -50000i32) and ($.f0 <= 850000i32))`, joined by And with the same of `f1`, `f2` and `f3`.
pub fn four_ranges(fields: &[Numbers]) -> Rows<'_> {
    let rows = fields[0].values.len();
    let within = fields
        .iter()
        .map(|f| {
            bits(rows, |i| {
                (f.values[i] >= -50_000) & (f.values[i] <= 850_000)
            })
        })
        .collect::<Vec<_>>();
    let mut all = Bits::with_capacity(rows.div_ceil(64));
    let mut known = Bits::with_capacity(rows.div_ceil(64));
    for w in 0..rows.div_ceil(64) {
        let (mut trues, mut falses) = (u64::MAX, 0);
        for (within, field) in within.iter().zip(fields) {
            trues &= within[w] & field.valid[w];
            falses |= !within[w] & field.valid[w];
        }
        all.push(trues);
        known.push(trues | falses);
    }
    Rows::Truths(all, Some(Cow::Owned(known)), rows)
}

/// `CASE WHEN ($.x > 0i32) THEN 10i32 WHEN ($.x > 3i32) THEN 20i32 ELSE 30i32 END`.
pub fn case(fields: &[Numbers]) -> Rows<'_> {
    let x = &fields[0];
    let chosen = (0..x.values.len()).map(|i| {
        let x_is = |least: i32| is_set(&x.valid, i) & (x.values[i] > least);
        if x_is(0) {
            10
        } else if x_is(3) {
            20
        } else {
            30
        }
    });
    Rows::Numbers(chosen.collect(), None)
}

/// `CASE WHEN ($.k = 0i32) THEN $.x WHEN ($.k = 1i32) THEN $.y ELSE $.z END`, where no key is null.
pub fn case_of_fields(fields: &[Numbers]) -> Rows<'_> {
    let (x, y, z, k) = (&fields[0], &fields[1], &fields[2], &fields[3]);
    let field = |i: usize| match k.values[i] {
        0 => x,
        1 => y,
        _ => z,
    };
    let rows = x.values.len();
    let values = (0..rows).map(|i| field(i).values[i]).collect();
    let valid = bits(rows, |i| is_set(&field(i).valid, i));
    Rows::Numbers(values, Some(Cow::Owned(valid)))
}

/// `zip($.x, $.y, ($.z >= 400000i32))`.
pub fn zip(fields: &[Numbers]) -> Rows<'_> {
    let (x, y, z) = (&fields[0], &fields[1], &fields[2]);
    let rows = x.values.len();
    let mask = bits(rows, |i| z.values[i] >= 400_000);
    let mask = mask
        .iter()
        .zip(&z.valid)
        .map(|(m, v)| m & v)
        .collect::<Bits>();
    let values = (0..rows).map(|i| {
        if is_set(&mask, i) {
            x.values[i]
        } else {
            y.values[i]
        }
    });
    let valid = (0..mask.len()).map(|w| (x.valid[w] & mask[w]) | (y.valid[w] & !mask[w]));
    Rows::Numbers(values.collect(), Some(valid.collect()))
}

/// `vortex.fill_null($.x, 5i32)`.
pub fn fill_null(fields: &[Numbers]) -> Rows<'_> {
    let x = &fields[0];
    let filled = (0..x.values.len()).map(|i| if is_set(&x.valid, i) { x.values[i] } else { 5 });
    Rows::Numbers(filled.collect(), None)
}

/// `$.x in (..)`, of so many numbers.
pub fn members<const COUNT: usize>(fields: &[Numbers]) -> Rows<'_> {
    let x = &fields[0];
    let members = listed::<i32>(COUNT);
    truths(x.values.len(), Some(Cow::Borrowed(&x.valid)), |i| {
        members.contains(&x.values[i])
    })
}

/// `($.x + $.y)`.
pub fn sum(fields: &[Numbers]) -> Rows<'_> {
    let (x, y) = (&fields[0], &fields[1]);
    let valid = x
        .valid
        .iter()
        .zip(&y.valid)
        .map(|(a, b)| a & b)
        .collect::<Bits>();
    let mut overflows = false;
    let sums = (0..x.values.len()).map(|i| {
        let (sum, is_over) = x.values[i].overflowing_add(y.values[i]);
        overflows |= is_over & is_set(&valid, i);
        sum
    });
    let sums = sums.collect();
    assert!(!overflows, "a sum within i32");
    Rows::Numbers(sums, Some(Cow::Owned(valid)))
}

/// `vortex.is_null($.x)`.
pub fn is_null(fields: &[Numbers]) -> Rows<'_> {
    let x = &fields[0];
    Rows::Truths(x.valid.iter().map(|w| !w).collect(), None, x.values.len())
}

fn truths<'a>(rows: usize, valid: Option<Cow<'a, [u64]>>, f: impl Fn(usize) -> bool) -> Rows<'a> {
    Rows::Truths(bits(rows, f), valid, rows)
}

fn bits(rows: usize, f: impl Fn(usize) -> bool) -> Bits {
    let word = |from: usize, len: usize| (0..len).fold(0, |w, k| w | u64::from(f(from + k)) << k);
    let mut words = Bits::with_capacity(rows.div_ceil(64));
    // (whole words apart, for which the length is known to the compiler)
    for w in 0..rows / 64 {
        words.push(word(64 * w, 64));
    }
    if rows % 64 > 0 {
        words.push(word(rows - rows % 64, rows % 64));
    }
    words
}

fn is_set(bits: &[u64], i: usize) -> bool {
    bits[i / 64] >> (i % 64) & 1 == 1
}

impl Rows<'_> {
    /// The digest of the rows.
    pub fn digest(&self) -> Digest {
        Digest::of(&match self {
            Rows::Numbers(values, valid) => shown(values.len(), valid.as_deref(), |i| {
                Value::Int(i128::from(values[i]))
            }),
            Rows::Truths(words, valid, rows) => {
                shown(*rows, valid.as_deref(), |i| Value::Bool(is_set(words, i)))
            }
        })
    }
}

fn shown(rows: usize, valid: Option<&[u64]>, value: impl Fn(usize) -> Value) -> Vec<Value> {
    (0..rows)
        .map(|i| match valid {
            Some(valid) if !is_set(valid, i) => Value::Null,
            _ => value(i),
        })
        .collect()
}
