//! The functions under test, from the static library `libplanner_c.a`.

use crate::under_test::{Asked, KeptAnswer, LatestAnswer, PlanAnswer, SameAnswer, UNTOUCHED};

unsafe extern "C" {
    fn tuzhelar_plan(
        sheet: *const u8,
        sheet_len: usize,
        space: *mut i32,
        space_len: usize,
        answer: *mut i64,
        answer_len: usize,
    ) -> u32;
    fn tuzhelar_kept(
        sheet: *const u8,
        sheet_len: usize,
        answer: *mut i64,
        answer_len: usize,
    ) -> u32;
    fn tuzhelar_test(
        sheet: *const u8,
        sheet_len: usize,
        times: *const i64,
        times_len: usize,
    ) -> u32;
    fn tuzhelar_latest(
        sheet: *const u8,
        sheet_len: usize,
        times: *const i64,
        times_len: usize,
        space: *mut i32,
        space_len: usize,
        answer: *mut i64,
        answer_len: usize,
    ) -> u32;
    fn tuzhelar_same(
        first: *const u8,
        first_len: usize,
        second: *const u8,
        second_len: usize,
        left: *mut i32,
        left_len: usize,
        right: *mut i32,
        right_len: usize,
        answer: *mut i64,
        answer_len: usize,
    ) -> u32;
    fn tuzhelar_hire(
        panels: usize,
        triggers: usize,
        state: u32,
        bytes: *mut u8,
        bytes_len: usize,
        answer: *mut i64,
        answer_len: usize,
    ) -> u32;
}

pub fn plan(sheet: &[u8], space: &mut [i32]) -> PlanAnswer {
    let mut words = [UNTOUCHED; 8];
    // SAFETY: each pointer goes with the length of the slice it comes from, and no slice overlaps
    // another.
    let code = unsafe {
        tuzhelar_plan(
            sheet.as_ptr(),
            sheet.len(),
            space.as_mut_ptr(),
            space.len(),
            words.as_mut_ptr(),
            words.len(),
        )
    };
    PlanAnswer { code, words }
}

pub fn kept(sheet: &[u8]) -> KeptAnswer {
    let mut words = [UNTOUCHED; 18];
    // SAFETY: as in `plan`.
    let code =
        unsafe { tuzhelar_kept(sheet.as_ptr(), sheet.len(), words.as_mut_ptr(), words.len()) };
    KeptAnswer { code, words }
}

pub fn test(sheet: &[u8], times: &[i64]) -> u32 {
    // SAFETY: as in `plan`.
    unsafe { tuzhelar_test(sheet.as_ptr(), sheet.len(), times.as_ptr(), times.len()) }
}

pub fn latest(sheet: &[u8], given: &[i64], space: &mut [i32]) -> LatestAnswer {
    let mut words = [UNTOUCHED; 10];
    // SAFETY: as in `plan`.
    let code = unsafe {
        tuzhelar_latest(
            sheet.as_ptr(),
            sheet.len(),
            given.as_ptr(),
            given.len(),
            space.as_mut_ptr(),
            space.len(),
            words.as_mut_ptr(),
            words.len(),
        )
    };
    LatestAnswer { code, words }
}

pub fn same(first: &[u8], second: &[u8], left: &mut [i32], right: &mut [i32]) -> SameAnswer {
    let mut words = [UNTOUCHED; 6];
    // SAFETY: as in `plan`.
    let code = unsafe {
        tuzhelar_same(
            first.as_ptr(),
            first.len(),
            second.as_ptr(),
            second.len(),
            left.as_mut_ptr(),
            left.len(),
            right.as_mut_ptr(),
            right.len(),
            words.as_mut_ptr(),
            words.len(),
        )
    };
    SameAnswer { code, words }
}

pub fn hire(asked: Asked, bytes: &mut [u8], answer: &mut [i64]) -> u32 {
    let [panels, triggers] = asked.size;
    // SAFETY: as in `plan`.
    unsafe {
        tuzhelar_hire(
            panels,
            triggers,
            asked.state,
            bytes.as_mut_ptr(),
            bytes.len(),
            answer.as_mut_ptr(),
            answer.len(),
        )
    }
}
