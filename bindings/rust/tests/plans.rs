//! Plans that are kept.

use vx::{Error, Kind, Plan, Text};

const X: &str = "{x=i32}";

/// The buffers of rows of [`X`].
fn numbers(values: impl IntoIterator<Item = i32>) -> Vec<u8> {
    values.into_iter().flat_map(i32::to_le_bytes).collect()
}

#[test]
fn a_plan_scans_many_batches() -> Result<(), Error> {
    let mut plan = Plan::new("x + 1", X)?;
    assert_eq!(plan.paths()?, "[[\"x\"]]\n");
    for rows in 0..100 {
        let wanted: String = (1..=rows).map(|x| format!("{x}\n")).collect();
        let values = numbers(0..rows);
        assert_eq!(plan.scan(values.len() / 4, &[&[], &[], &values])?, wanted);
    }
    Ok(())
}

#[test]
fn a_plan_selects_rows() -> Result<(), Error> {
    let mut plan = Plan::new("x + 1 > 5", "{x=i32?}")?;
    let values = numbers([7, 7, 1]);
    assert_eq!(
        plan.select(3, &[&[], &[0b101], &values])?,
        [true, false, false]
    );
    assert!(plan.select(0, &[&[], &[], &[]])?.is_empty());
    let many = plan.select(10_000, &[&[], &[], &numbers(0..10_000)])?;
    assert!(many.iter().enumerate().all(|(x, &is)| is == (x > 4)));
    let faulted = plan
        .select(2, &[&[], &[], &numbers([1, i32::MAX])])
        .unwrap_err();
    assert_eq!(faulted.kind(), Kind::Faulted);
    assert_eq!(faulted.place().and_then(|place| place.record), Some(2));
    let short = plan.select(2, &[&[], &[], &numbers([1])]).unwrap_err();
    assert_eq!(short.kind(), Kind::BadData);
    let number = Plan::new("x + 1", X)?.select(3, &[&[], &[], &values]);
    assert_eq!(number.unwrap_err().kind(), Kind::Refused);
    Ok(())
}

#[test]
fn long_answers_are_whole() -> Result<(), Error> {
    let mut plan = Plan::new("\"a text that is longer than a number\"", "i32")?;
    let page = plan.scan(10_000, &[&[], &numbers(0..10_000)])?;
    assert_eq!(
        page,
        "\"a text that is longer than a number\"\n".repeat(10_000)
    );
    Ok(())
}

#[test]
fn batches_of_nested_types_are_read() -> Result<(), Error> {
    let mut plan = Plan::new("$", "{l=list(utf8?)?, b=bool}")?;
    let texts = [
        &b"\x05"[..],
        b"\0\0\0\0\x01\0\0\0\x01\0\0\0\x02\0\0\0",
        b"ab",
    ];
    let lists = [&b"\x01"[..], b"\0\0\0\0\x03\0\0\0\x03\0\0\0"];
    let bools = [&b""[..], b"\x02"];
    let batch = [&[&b""[..]][..], &lists, &texts, &bools].concat();
    let wanted = "{\"l\":[\"a\",null,\"b\"],\"b\":false}\n{\"l\":null,\"b\":true}\n";
    assert_eq!(plan.scan(2, &batch)?, wanted);
    Ok(())
}

/// They are in IEEE 754's total order: -0 before 0, and NaN last.
#[test]
fn floats_are_selected_and_scanned() -> Result<(), Error> {
    let numbers = [9.99, -0.0, f64::NAN, f64::INFINITY, 0.0];
    let values: Vec<u8> = numbers.iter().flat_map(|x| x.to_le_bytes()).collect();
    let batch = [&[], &[0b10111][..], &values];
    let mut plan = Plan::new("x > 9.0 or x < 0.0", "{x=f64?}")?;
    assert_eq!(plan.select(5, &batch)?, [true, true, true, false, false]);
    let wanted = "9.99\n-0.0\n\"nan\"\nnull\n0.0\n";
    assert_eq!(Plan::new("x", "{x=f64?}")?.scan(5, &batch)?, wanted);
    let single = [0.5f32, -0.0].map(f32::to_le_bytes).concat();
    let mut plan = Plan::new("x + x", "{x=f32}")?;
    assert_eq!(plan.scan(2, &[&[], &[], &single])?, "1.0\n-0.0\n");
    Ok(())
}

#[test]
fn two_plans_stand_side_by_side() -> Result<(), Error> {
    let mut more = Plan::new("x + 1", X)?;
    let mut less = Plan::new("x < 5", X)?;
    let values = numbers([1, 7]);
    for _ in 0..10 {
        assert_eq!(more.scan(2, &[&[], &[], &values])?, "2\n8\n");
        assert_eq!(less.scan(2, &[&[], &[], &values])?, "true\nfalse\n");
    }
    drop(more);
    assert_eq!(less.scan(1, &[&[], &[], &values])?, "true\n");
    Ok(())
}

#[test]
fn a_clone_is_a_plan_of_its_own() -> Result<(), Error> {
    let plan = Plan::new("x + 1 > 5", X)?;
    let mut clones: Vec<Plan> = (0..8).map(|_| plan.clone()).collect();
    let wanted = [true, false];
    std::thread::scope(|threads| {
        for clone in &mut clones {
            threads.spawn(move || {
                for _ in 0..100 {
                    let mut again = clone.clone();
                    let values = numbers([5, 4]);
                    assert_eq!(clone.select(2, &[&[], &[], &values]), Ok(wanted.to_vec()));
                    assert_eq!(again.select(2, &[&[], &[], &values]), Ok(wanted.to_vec()));
                }
            });
        }
    });
    drop(plan);
    assert_eq!(clones[7].scope()?, "{x=i32}\n");
    let mut last = clones.swap_remove(3);
    drop(clones);
    assert_eq!(last.select(2, &[&[], &[], &numbers([5, 4])])?, wanted);
    Ok(())
}

#[test]
fn stops_tell_their_place() -> Result<(), Error> {
    assert_eq!(Plan::new("x +", X).unwrap_err().kind(), Kind::Unread);
    assert_eq!(Plan::new(b"x\xff", X).unwrap_err().kind(), Kind::Unread);
    let refused = Plan::new("y", X).unwrap_err();
    assert_eq!(refused.kind(), Kind::Refused);
    assert_eq!(refused.place().map(|place| place.end), Some(1));
    let mut plan = Plan::new("x + 1", X)?;
    let faulted = plan
        .scan(2, &[&[], &[], &numbers([1, i32::MAX])])
        .unwrap_err();
    assert_eq!(faulted.kind(), Kind::Faulted);
    assert_eq!(faulted.place().and_then(|place| place.record), Some(2));
    let null = plan.scan(2, &[&[], &[1], &numbers([1, 2])]).unwrap_err();
    assert_eq!(null.kind(), Kind::BadData);
    let place = null.place().expect("a place");
    assert_eq!((place.text, place.record), (Text::Records, Some(2)));
    let short = plan.scan(2, &[&[], &[], &numbers([1])]).unwrap_err();
    assert_eq!(short.kind(), Kind::BadData);
    assert_eq!(short.place().and_then(|place| place.record), Some(2));
    let too_few = plan.scan(2, &[&[], &[]]).unwrap_err();
    assert_eq!(too_few.kind(), Kind::BadData);
    assert_eq!(too_few.place().and_then(|place| place.record), None);
    assert_eq!(plan.scan(1, &[&[], &[], &numbers([1])])?, "2\n");
    Ok(())
}
