//! The functions of `libplanner_c.a`, and the crate's only unsafe code.
//!
//! Their contracts (`crates/planner_c/src/lib.rt`) ask nothing of lengths, bytes or words. What is left to
//! a caller is what a slice already promises: each pointer is aligned and valid for its length, the bytes
//! and words hold values, and one that is written overlaps no other. A pointer with length 0 is not read
//! or written through.
#![allow(unsafe_code)]

unsafe extern "C" {
    fn tuzhelar_plan(
        sheet: *const u8,
        sheet_length: usize,
        space: *mut i32,
        space_length: usize,
        answer: *mut i64,
        answer_length: usize,
    ) -> u32;
    fn tuzhelar_kept(
        sheet: *const u8,
        sheet_length: usize,
        answer: *mut i64,
        answer_length: usize,
    ) -> u32;
    fn tuzhelar_test(
        sheet: *const u8,
        sheet_length: usize,
        times: *const i64,
        times_length: usize,
    ) -> u32;
    fn tuzhelar_latest(
        sheet: *const u8,
        sheet_length: usize,
        times: *const i64,
        times_length: usize,
        space: *mut i32,
        space_length: usize,
        answer: *mut i64,
        answer_length: usize,
    ) -> u32;
    fn tuzhelar_same(
        first: *const u8,
        first_length: usize,
        second: *const u8,
        second_length: usize,
        left: *mut i32,
        left_length: usize,
        right: *mut i32,
        right_length: usize,
        answer: *mut i64,
        answer_length: usize,
    ) -> u32;
    fn tuzhelar_hire(
        panels: usize,
        triggers: usize,
        state: u32,
        bytes: *mut u8,
        bytes_length: usize,
        answer: *mut i64,
        answer_length: usize,
    ) -> u32;
}

pub fn plan(sheet: &[u8], space: &mut [i32], answer: &mut [i64]) -> u32 {
    // SAFETY: each pointer and length are those of one slice; `space` and `answer` are borrowed for
    // writing, so they overlap nothing, and nothing else writes there during the call.
    unsafe {
        tuzhelar_plan(
            sheet.as_ptr(),
            sheet.len(),
            space.as_mut_ptr(),
            space.len(),
            answer.as_mut_ptr(),
            answer.len(),
        )
    }
}

pub fn kept(sheet: &[u8], answer: &mut [i64]) -> u32 {
    // SAFETY: as in `plan`.
    unsafe {
        tuzhelar_kept(
            sheet.as_ptr(),
            sheet.len(),
            answer.as_mut_ptr(),
            answer.len(),
        )
    }
}

pub fn test(sheet: &[u8], times: &[i64]) -> u32 {
    // SAFETY: as in `plan`; both slices are only read.
    unsafe { tuzhelar_test(sheet.as_ptr(), sheet.len(), times.as_ptr(), times.len()) }
}

pub fn latest(sheet: &[u8], times: &[i64], space: &mut [i32], answer: &mut [i64]) -> u32 {
    // SAFETY: as in `plan`; the times are only read.
    unsafe {
        tuzhelar_latest(
            sheet.as_ptr(),
            sheet.len(),
            times.as_ptr(),
            times.len(),
            space.as_mut_ptr(),
            space.len(),
            answer.as_mut_ptr(),
            answer.len(),
        )
    }
}

pub fn same(
    first: &[u8],
    second: &[u8],
    left: &mut [i32],
    right: &mut [i32],
    answer: &mut [i64],
) -> u32 {
    // SAFETY: as in `plan`; both sheets are only read.
    unsafe {
        tuzhelar_same(
            first.as_ptr(),
            first.len(),
            second.as_ptr(),
            second.len(),
            left.as_mut_ptr(),
            left.len(),
            right.as_mut_ptr(),
            right.len(),
            answer.as_mut_ptr(),
            answer.len(),
        )
    }
}

pub fn hire(
    panels: usize,
    triggers: usize,
    state: u32,
    bytes: &mut [u8],
    answer: &mut [i64],
) -> u32 {
    // SAFETY: as in `plan`, with `bytes` in the place of `space`; the other arguments are numbers, of which
    // nothing is asked.
    unsafe {
        tuzhelar_hire(
            panels,
            triggers,
            state,
            bytes.as_mut_ptr(),
            bytes.len(),
            answer.as_mut_ptr(),
            answer.len(),
        )
    }
}
