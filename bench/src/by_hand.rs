//! The queries as they would be written by hand, each in one pass over the rows.
use std::collections::HashSet;
use std::hash::Hash;

/// The same values as the library's.
#[derive(Clone)]
#[allow(dead_code)]
pub enum Value {
    Null,
    Bool(bool),
    Int(i128),
    Utf8(String),
    Binary(Vec<u8>),
    List(Vec<Value>),
    Struct(Vec<Value>),
}

/// `(($.x >= 10i32) and ($.x <= 500000i32))`.
pub fn range(rows: &[Value]) -> Vec<Value> {
    each(rows, |row| match field(row, 0) {
        Value::Int(x) => Value::Bool((10..=500_000).contains(x)),
        _ => Value::Null,
    })
}

/// `CASE WHEN ($.x > 0i32) THEN 10i32 WHEN ($.x > 3i32) THEN 20i32 ELSE 30i32 END`.
pub fn case(rows: &[Value]) -> Vec<Value> {
    each(rows, |row| match field(row, 0) {
        Value::Int(x) if *x > 0 => Value::Int(10),
        Value::Int(x) if *x > 3 => Value::Int(20),
        _ => Value::Int(30),
    })
}

/// `$.s like "%b%d"`, for this pattern alone.
pub fn like(rows: &[Value]) -> Vec<Value> {
    each(rows, |row| match field(row, 0) {
        Value::Utf8(text) => Value::Bool(
            text.strip_suffix('d')
                .is_some_and(|front| front.contains('b')),
        ),
        _ => Value::Null,
    })
}

/// `$.s like "%b%d"`, by a matcher that takes any pattern.
pub fn like_any(rows: &[Value]) -> Vec<Value> {
    let pattern = std::hint::black_box("%b%d");
    each(rows, |row| match field(row, 0) {
        Value::Utf8(text) => Value::Bool(matches(pattern.as_bytes(), text)),
        _ => Value::Null,
    })
}

/// `pack(a: $.x, b: $.y, c: $.z).b`, which is `$.y`.
pub fn item(rows: &[Value]) -> Vec<Value> {
    each(rows, |row| field(row, 1).clone())
}

/// `CASE WHEN ($.k = 0i32) THEN $.x WHEN ($.k = 1i32) THEN $.y ELSE ($.z + 1i32) END`.
pub fn case_with_sum(rows: &[Value]) -> Vec<Value> {
    each(rows, |row| match field(row, 3) {
        Value::Int(0) => field(row, 0).clone(),
        Value::Int(1) => field(row, 1).clone(),
        _ => added(field(row, 2), &Value::Int(1)),
    })
}

/// `CASE WHEN ($.k = 0i32) THEN $.x WHEN ($.k = 1i32) THEN $.y ELSE $.z END`.
pub fn case_of_fields(rows: &[Value]) -> Vec<Value> {
    each(rows, |row| match field(row, 3) {
        Value::Int(0) => field(row, 0).clone(),
        Value::Int(1) => field(row, 1).clone(),
        _ => field(row, 2).clone(),
    })
}

/// `zip($.x, $.y, ($.z >= 400000i32))`.
pub fn zip(rows: &[Value]) -> Vec<Value> {
    each(rows, |row| match field(row, 2) {
        Value::Int(z) if *z >= 400_000 => field(row, 0).clone(),
        _ => field(row, 1).clone(),
    })
}

/// `vortex.fill_null($.x, 5i32)`.
pub fn fill_null(rows: &[Value]) -> Vec<Value> {
    each(rows, |row| match field(row, 0) {
        Value::Null => Value::Int(5),
        x => x.clone(),
    })
}

/// `$.x in (..)`, of so many numbers.
pub fn members<const COUNT: usize>(rows: &[Value]) -> Vec<Value> {
    let members = listed::<i128>(COUNT);
    each(rows, |row| match field(row, 0) {
        Value::Int(x) => Value::Bool(members.contains(x)),
        _ => Value::Null,
    })
}

/// So many numbers of the list: 997 apart, from -100,000 on.
pub fn listed<N: Eq + Hash + From<i32>>(count: usize) -> HashSet<N> {
    (-100_000..).step_by(997).take(count).map(N::from).collect()
}

/// `($.x + $.y)`.
pub fn sum(rows: &[Value]) -> Vec<Value> {
    each(rows, |row| added(field(row, 0), field(row, 1)))
}

/// `vortex.is_null($.x)`.
pub fn is_null(rows: &[Value]) -> Vec<Value> {
    each(rows, |row| {
        Value::Bool(matches!(field(row, 0), Value::Null))
    })
}

/// `(($.f0 >= -50000i32) and ($.f0 <= 850000i32))`, joined by And with the same of `f1`, `f2` and `f3`.
pub fn four_ranges(rows: &[Value]) -> Vec<Value> {
    each(rows, |row| {
        let mut all = Value::Bool(true);
        for place in 0..4 {
            match field(row, place) {
                Value::Int(n) if (-50_000..=850_000).contains(n) => {}
                Value::Int(_) => return Value::Bool(false),
                _ => all = Value::Null,
            }
        }
        all
    })
}

/// `pack(a: $.x, b: $.y, c: $.z)`.
pub fn pack(rows: &[Value]) -> Vec<Value> {
    each(rows, |row| {
        Value::Struct((0..3).map(|place| field(row, place).clone()).collect())
    })
}

fn each(rows: &[Value], f: impl Fn(&Value) -> Value) -> Vec<Value> {
    rows.iter().map(f).collect()
}

fn field(row: &Value, place: usize) -> &Value {
    match row {
        Value::Struct(items) => &items[place],
        _ => &Value::Null,
    }
}

// The sum of two numbers, which has to be an `i32`, and null with a null.
fn added(left: &Value, right: &Value) -> Value {
    match (left, right) {
        (Value::Int(left), Value::Int(right)) => {
            let sum = i32::try_from(left + right).expect("a sum within i32");
            Value::Int(i128::from(sum))
        }
        _ => Value::Null,
    }
}

// Whether the pattern of `%`, `_`, `\` and other characters spells the text: after each `%` the
// walk goes back to it alone.
fn matches(pattern: &[u8], text: &str) -> bool {
    let bytes = text.as_bytes();
    let (mut at, mut next) = (0, 0);
    let mut back = None;
    while at < bytes.len() {
        let step = match pattern.get(next) {
            Some(b'%') => {
                back = Some((next + 1, at));
                next += 1;
                continue;
            }
            Some(b'_') => Some((1, character(bytes, at))),
            Some(b'\\') if next + 1 < pattern.len() => {
                (pattern[next + 1] == bytes[at]).then_some((2, 1))
            }
            Some(b) => (*b == bytes[at]).then_some((1, 1)),
            None => None,
        };
        match (step, back) {
            (Some((parts, long)), _) => {
                next += parts;
                at += long;
            }
            (None, Some((after, begin))) => {
                let later = begin + character(bytes, begin);
                back = Some((after, later));
                next = after;
                at = later;
            }
            (None, None) => return false,
        }
    }
    pattern[next..].iter().all(|b| *b == b'%')
}

// The bytes of the character that begins there.
fn character(bytes: &[u8], at: usize) -> usize {
    match bytes[at] {
        0..=127 => 1,
        128..=223 => 2,
        224..=239 => 3,
        _ => 4,
    }
}
