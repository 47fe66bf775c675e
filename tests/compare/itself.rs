//! The reference in the place of an implementation under test, to try the comparison itself.

use crate::compare::{kept_answer, latest_answer, plan_answer, same_answer, test_answer};
use crate::under_test::{Asked, KeptAnswer, LatestAnswer, Operations, PlanAnswer, SameAnswer};
use crate::{generator, hire, latest, reference};

pub const REFERENCE: Operations = Operations {
    plan,
    kept,
    test,
    latest,
    same,
    hire,
};

pub fn plan(sheet: &[u8], space: &mut [i32]) -> PlanAnswer {
    plan_answer(&reference::plan(sheet, space))
}

pub fn kept(sheet: &[u8]) -> KeptAnswer {
    kept_answer(&reference::survey(sheet))
}

pub fn test(sheet: &[u8], times: &[i64]) -> u32 {
    test_answer(reference::test(sheet, times))
}

pub fn latest(sheet: &[u8], given: &[i64], space: &mut [i32]) -> LatestAnswer {
    latest_answer(&latest::latest(sheet, given, space))
}

pub fn same(first: &[u8], second: &[u8], left: &mut [i32], right: &mut [i32]) -> SameAnswer {
    same_answer(&reference::same(first, second, left, right))
}

pub fn hire(asked: Asked, bytes: &mut [u8], answer: &mut [i64]) -> u32 {
    hire::hire_from(generator::sheet, asked, bytes, answer)
}
