//! The calls of `include/vx.h`.

use std::os::raw::{c_char, c_void};

#[repr(C)]
#[derive(Clone, Copy, Default)]
pub struct VxPlace {
    pub text: usize,
    pub start: usize,
    pub end: usize,
    pub line: usize,
    pub column: usize,
    pub record: u64,
}

#[repr(C)]
#[derive(Clone, Copy, Default)]
pub struct VxAnswer {
    pub needed: usize,
    pub place: VxPlace,
}

/// A plan, or none where the pointer is null.
#[repr(C)]
#[derive(Debug)]
pub struct VxPlan {
    pub at: *mut c_void,
}

/// Bytes that are lent.
#[repr(C)]
pub struct VxBuffer {
    pub bytes: *const c_void,
    pub length: usize,
}

impl VxBuffer {
    /// The bytes, for as long as they are there.
    pub fn of(bytes: &[u8]) -> VxBuffer {
        VxBuffer {
            bytes: bytes.as_ptr().cast(),
            length: bytes.len(),
        }
    }
}

pub const ANSWERED: u32 = 0;
pub const TOO_SMALL: u32 = 1;
pub const OUT_OF_MEMORY: u32 = 2;
pub const UNREAD: u32 = 3;
pub const REFUSED: u32 = 4;
pub const FAULTED: u32 = 5;
pub const BAD_DATA: u32 = 6;

extern "C" {
    pub fn vx_check(
        expression: *const c_char,
        expression_length: usize,
        schema: *const c_char,
        schema_length: usize,
        buffer: *mut c_char,
        buffer_length: usize,
        answer: *mut VxAnswer,
    ) -> u32;
    pub fn vx_explain(
        expression: *const c_char,
        expression_length: usize,
        schema: *const c_char,
        schema_length: usize,
        buffer: *mut c_char,
        buffer_length: usize,
        answer: *mut VxAnswer,
    ) -> u32;
    pub fn vx_plan_json(
        expression: *const c_char,
        expression_length: usize,
        schema: *const c_char,
        schema_length: usize,
        buffer: *mut c_char,
        buffer_length: usize,
        answer: *mut VxAnswer,
    ) -> u32;
    pub fn vx_fmt(
        expression: *const c_char,
        expression_length: usize,
        buffer: *mut c_char,
        buffer_length: usize,
        answer: *mut VxAnswer,
    ) -> u32;
    pub fn vx_prune(
        expression: *const c_char,
        expression_length: usize,
        schema: *const c_char,
        schema_length: usize,
        statistics: *const c_char,
        statistics_length: usize,
        buffer: *mut c_char,
        buffer_length: usize,
        answer: *mut VxAnswer,
    ) -> u32;
    pub fn vx_eval_json(
        expression: *const c_char,
        expression_length: usize,
        schema: *const c_char,
        schema_length: usize,
        records: *const c_char,
        records_length: usize,
        buffer: *mut c_char,
        buffer_length: usize,
        answer: *mut VxAnswer,
    ) -> u32;
    pub fn vx_version(buffer: *mut c_char, buffer_length: usize, answer: *mut VxAnswer) -> u32;
    pub fn vx_plan_new(
        expression: *const c_char,
        expression_length: usize,
        schema: *const c_char,
        schema_length: usize,
        plan: *mut VxPlan,
        buffer: *mut c_char,
        buffer_length: usize,
        answer: *mut VxAnswer,
    ) -> u32;
    pub fn vx_plan_share(plan: *mut VxPlan, other: *mut VxPlan) -> u32;
    pub fn vx_plan_scope(
        plan: *mut VxPlan,
        buffer: *mut c_char,
        buffer_length: usize,
        answer: *mut VxAnswer,
    ) -> u32;
    pub fn vx_plan_paths(
        plan: *mut VxPlan,
        buffer: *mut c_char,
        buffer_length: usize,
        answer: *mut VxAnswer,
    ) -> u32;
    pub fn vx_plan_scan(
        plan: *mut VxPlan,
        rows: usize,
        buffers: *const VxBuffer,
        buffers_length: usize,
        buffer: *mut c_char,
        buffer_length: usize,
        answer: *mut VxAnswer,
    ) -> u32;
    pub fn vx_plan_select(
        plan: *mut VxPlan,
        rows: usize,
        buffers: *const VxBuffer,
        buffers_length: usize,
        buffer: *mut c_char,
        buffer_length: usize,
        answer: *mut VxAnswer,
    ) -> u32;
    pub fn vx_plan_free(plan: *mut VxPlan);
}
