//! The expression layer of a columnar engine, for Rust: a safe crate over `include/vx.h`.
//!
//! An expression is a text such as `x >= 1 and s like "t%"`, and the type of the rows that it is over is
//! one such as `{x=i32?, s=utf8}`; docs/use/SOURCE.md of the repository says how both are written.
//!
//! ```
//! assert_eq!(vx::check("x >= 1 and x <= 5", "{x=i32?}")?, "bool?");
//! assert_eq!(vx::eval_json("x + 1", "{x=i32}", "{\"x\": 1}\n{\"x\": 5}\n")?, "2\n6\n");
//! let refused = vx::check("x + s", "{x=i32, s=utf8}").unwrap_err();
//! assert_eq!(refused.kind(), vx::Kind::Refused);
//! assert_eq!(refused.place().unwrap().end, 5);
//! # Ok::<(), vx::Error>(())
//! ```
//!
//! Texts are `&str`, or bytes: what isn't UTF-8 is refused as `Unread`, at its place. The calls may run on
//! several threads at once, and each thread may have a clone of a [`Plan`].

#![deny(missing_docs)]

mod call;
mod error;
mod plan;
mod sys;

pub use error::{Error, Kind, Place, Text};
pub use plan::Plan;

use call::page;

/// The type of the expression over rows of the schema's type.
///
/// # Errors
///
/// `Unread` for a text that can't be read, and `Refused` for an expression that has no type.
pub fn check(expression: impl AsRef<[u8]>, schema: impl AsRef<[u8]>) -> Result<String, Error> {
    let (expression, schema) = (expression.as_ref(), schema.as_ref());
    page!(vx_check, expression, schema).map(without_end)
}

/// What becomes of the expression over rows of the schema's type, as lines for a person to read.
///
/// # Errors
///
/// As of [`check`].
pub fn explain(expression: impl AsRef<[u8]>, schema: impl AsRef<[u8]>) -> Result<String, Error> {
    let (expression, schema) = (expression.as_ref(), schema.as_ref());
    page!(vx_explain, expression, schema)
}

/// The plan of a scan by the expression over rows of the schema's type: a line of JSON, an object with its
/// `scope`, `tree`, `type`, `paths`, `root` and `partitions`. A [`Plan`] is one that scans.
///
/// ```
/// let plan = vx::plan_json("is_null($)", "utf8?")?;
/// assert!(plan.contains(r#""paths":[[]]"#));
/// # Ok::<(), vx::Error>(())
/// ```
///
/// # Errors
///
/// As of [`check`].
pub fn plan_json(expression: impl AsRef<[u8]>, schema: impl AsRef<[u8]>) -> Result<String, Error> {
    let (expression, schema) = (expression.as_ref(), schema.as_ref());
    page!(vx_plan_json, expression, schema)
}

/// The source text of the expression, which reads back to it.
///
/// ```
/// assert_eq!(vx::fmt("x between 1 and 3")?, "(1i32 <= $.x <= 3i32)");
/// # Ok::<(), vx::Error>(())
/// ```
///
/// # Errors
///
/// `Unread` for a text that can't be read.
pub fn fmt(expression: impl AsRef<[u8]>) -> Result<String, Error> {
    let expression = expression.as_ref();
    page!(vx_fmt, expression).map(without_end)
}

/// What the statistics of chunks of rows of the schema's type decide of the expression, which has to be of
/// truth values: of each chunk a line of JSON, an object of its `rows` and the `verdict`. That is `no row`
/// where the expression is true in none, `every row`, or `to be read`. The statistics are a line of JSON for
/// each chunk, too.
///
/// ```
/// let statistics = r#"{"rows": 3, "fields": {"x": {"nulls": 1, "least": 1, "greatest": 5}}}"#;
/// let verdicts = vx::prune("x > 5", "{x=i32?}", statistics)?;
/// assert_eq!(verdicts, "{\"rows\":3,\"verdict\":\"no row\"}\n");
/// # Ok::<(), vx::Error>(())
/// ```
///
/// # Errors
///
/// As of [`check`], and `BadData` for a line that says no statistics.
pub fn prune(
    expression: impl AsRef<[u8]>,
    schema: impl AsRef<[u8]>,
    statistics: impl AsRef<[u8]>,
) -> Result<String, Error> {
    let (expression, schema) = (expression.as_ref(), schema.as_ref());
    let statistics = statistics.as_ref();
    page!(vx_prune, expression, schema, statistics)
}

/// What the expression means at each record, as a line of JSON each. The records are lines of JSON of the
/// schema's type.
///
/// # Errors
///
/// As of [`check`], `BadData` for a record that isn't of the type, and `Faulted` where the expression
/// faults.
pub fn eval_json(
    expression: impl AsRef<[u8]>,
    schema: impl AsRef<[u8]>,
    records: impl AsRef<[u8]>,
) -> Result<String, Error> {
    let (expression, schema) = (expression.as_ref(), schema.as_ref());
    let records = records.as_ref();
    page!(vx_eval_json, expression, schema, records)
}

/// The version of the library.
///
/// # Errors
///
/// `OutOfMemory` alone.
pub fn version() -> Result<String, Error> {
    page!(vx_version).map(without_end)
}

/// The line without its end.
fn without_end(mut line: String) -> String {
    line.truncate(line.trim_end_matches('\n').len());
    line
}
