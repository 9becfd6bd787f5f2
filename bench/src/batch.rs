//! The rows that the queries read, the same as the library makes, and what is told of a column.
use crate::by_hand::Value;

/// Some numbers that tell columns apart: the nulls, the trues, and the sum of the numbers, in the rows
/// and in the items of structs.
#[repr(C)]
#[derive(Clone, Copy, Debug, Default, PartialEq, Eq)]
pub struct Digest {
    nulls: u64,
    trues: u64,
    sum: i64,
}

impl Digest {
    /// The digest of the rows.
    pub fn of(rows: &[Value]) -> Digest {
        let mut digest = Digest::default();
        digest.add_all(rows);
        digest
    }

    fn add_all(&mut self, values: &[Value]) {
        for value in values {
            self.add(value);
        }
    }

    fn add(&mut self, value: &Value) {
        match value {
            Value::Null => self.nulls += 1,
            Value::Bool(true) => self.trues += 1,
            Value::Int(n) => self.sum = self.sum.wrapping_add(*n as i64),
            Value::Struct(items) => self.add_all(items),
            _ => {}
        }
    }
}

/// Rows of so many numbers: the second one of a row is the first one of the next, and so on.
pub fn numbers<const COUNT: usize>(rows: usize) -> Vec<Value> {
    (0..rows)
        .map(|i| Value::Struct((i..i + COUNT).map(number).collect()))
        .collect()
}

/// `{x: number, y: number, z: number, k: key}`, with keys in runs of 1,000 rows.
pub fn keyed_in_runs(rows: usize) -> Vec<Value> {
    keyed(rows, |i| i as u64 / 1_000)
}

/// The same with scattered keys.
pub fn keyed_scattered(rows: usize) -> Vec<Value> {
    // `scattered` alone goes up by one step a row, and a processor learns to tell the next key.
    keyed(rows, |i| scattered(i.wrapping_mul(scattered(i) as usize)))
}

fn keyed(rows: usize, turn: fn(usize) -> u64) -> Vec<Value> {
    (0..rows)
        .map(|i| {
            let key = Value::Int(i128::from(turn(i) % 3));
            Value::Struct(vec![number(i), number(i + 1), number(i + 2), key])
        })
        .collect()
}

/// `{s: text}`.
pub fn texts(rows: usize) -> Vec<Value> {
    (0..rows).map(|i| Value::Struct(vec![text(i)])).collect()
}

fn scattered(i: usize) -> u64 {
    (i as u64).wrapping_mul(2_654_435_761) % 1_000_000
}

fn number(i: usize) -> Value {
    match scattered(i) {
        n if n % 10 == 7 => Value::Null,
        n => Value::Int(i128::from(n) - 100_000),
    }
}

fn text(i: usize) -> Value {
    let mut n = scattered(i);
    if n % 10 == 7 {
        return Value::Null;
    }
    let mut letters = String::with_capacity(8);
    for _ in 0..8 {
        letters.push(char::from(b"abcde"[(n % 5) as usize]));
        n /= 5;
    }
    Value::Utf8(letters)
}
