//! The calls, and what stops them.

use vx::{Error, Kind, Place, Text};

const X: &str = "{x=i32}";

#[test]
fn pages_are_answered() -> Result<(), Error> {
    assert_eq!(vx::fmt("x between 1 and 3")?, "(1i32 <= $.x <= 3i32)");
    assert_eq!(vx::check("x >= 1 and x <= 5", "{x=i32?}")?, "bool?");
    assert!(vx::explain("x > 5", X)?.starts_with("text: ($.x > 5i32)\n"));
    assert!(vx::plan_json("x > 5", X)?.contains("\"paths\":[[\"x\"]]"));
    assert_eq!(vx::eval_json("x + 1", X, "{\"x\": 1}\n")?, "2\n");
    assert_eq!(vx::eval_json("x + 1", X, "")?, "");
    assert_eq!(vx::check("price > 9.99", "{price=f64?}")?, "bool?");
    let prices = "{\"price\": 0.1}\n{\"price\": \"-inf\"}\n";
    let sums = vx::eval_json("price + 0.2", "{price=f64}", prices)?;
    assert_eq!(sums, "0.30000000000000004\n\"-inf\"\n");
    let verdicts = vx::prune("x > 5", X, "{\"rows\": 4}")?;
    assert_eq!(verdicts, "{\"rows\":4,\"verdict\":\"to be read\"}\n");
    assert_eq!(vx::version()?, env!("CARGO_PKG_VERSION"));
    Ok(())
}

#[test]
fn long_answers_are_whole() -> Result<(), Error> {
    let records = "{\"x\": 1}\n".repeat(10_000);
    assert_eq!(vx::eval_json("x", X, records)?, "1\n".repeat(10_000));
    Ok(())
}

#[test]
fn stops_tell_their_place() {
    let refused = vx::check("x > 1 and x + s = 2", "{x=i32, s=utf8}").unwrap_err();
    assert_eq!(refused.kind(), Kind::Refused);
    let place = Place {
        text: Text::Expression,
        start: 10,
        end: 15,
        line: Some(1),
        column: Some(11),
        record: None,
    };
    assert_eq!(refused.place(), Some(place));
    assert!(refused.to_string().contains("1 | x > 1 and x + s = 2\n"));
    let faulted = vx::eval_json("x + 1", X, "{\"x\": 2147483647}").unwrap_err();
    assert_eq!(faulted.kind(), Kind::Faulted);
    assert_eq!(faulted.place().and_then(|place| place.record), Some(1));
    let bad = vx::eval_json("x", X, "{\"x\": 1}\n{\"x\": ").unwrap_err();
    assert_eq!(bad.kind(), Kind::BadData);
    assert_eq!(bad.place().and_then(|place| place.line), Some(2));
}

#[test]
fn what_is_no_text_is_unread() {
    for (expression, schema) in [
        (&b""[..], &b"{x=i32}"[..]),
        (b"x", b""),
        (b"x\xff", b"{x=i32}"),
        (b"x", b"{x=i32\xff"),
        (b"x\0", b"{x=i32}"),
    ] {
        let unread = vx::check(expression, schema).unwrap_err();
        assert_eq!(unread.kind(), Kind::Unread);
        assert!(unread.place().is_some());
        assert!(unread.to_string().starts_with("error: "));
    }
}
