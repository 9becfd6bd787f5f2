//! The library's call that evaluates queries.
use crate::batch::Digest;

unsafe extern "C" {
    fn vx_evaluate(number: u8, way: u8, rows: usize, repeats: u32, digest: *mut Digest) -> u8;
}

/// What a query is evaluated over, by the numbers that the library gives.
#[derive(Clone, Copy)]
pub enum Way {
    Column = 0,
    Scan = 1,
    Array = 2,
}

/// Makes the batch of the query with that number and evaluates the query so often in that way, for the
/// digest of the last result.
pub fn evaluated(number: u8, way: Way, rows: usize, repeats: u32) -> Digest {
    let mut digest = Digest::default();
    let status = unsafe { vx_evaluate(number, way as u8, rows, repeats, &mut digest) };
    assert_eq!(status, 0, "query {number}");
    digest
}
