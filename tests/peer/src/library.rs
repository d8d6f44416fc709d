//! The library's C calls, made safe.
#![allow(unsafe_code)]

use crate::cost::Arc;

#[link(name = "nimovalsa", kind = "static")]
extern "C" {
    fn nimovalsa_check(sheet: *const u8, length: usize) -> u64;
    fn nimovalsa_cost(sheet: *const u8, length: usize, option: u64, start: u64, end: u64) -> u64;
    fn nimovalsa_price(
        sheet: *const u8,
        sheet_length: usize,
        plan: *const u8,
        plan_length: usize,
    ) -> u64;
    fn nimovalsa_plan(
        sheet: *const u8,
        sheet_length: usize,
        plan: *mut u8,
        plan_length: usize,
        words: *mut u64,
        words_count: usize,
    ) -> u64;
    fn nimovalsa_budget(
        sheet: *const u8,
        sheet_length: usize,
        plan: *const u8,
        plan_length: usize,
        general: u64,
        units: *mut u64,
        units_count: usize,
        cents: *mut u64,
        cents_count: usize,
    ) -> u64;
    fn nimovalsa_factor(rate: u64, year: u64) -> u64;
}

pub fn check(sheet: &[u8]) -> u64 {
    // SAFETY: the pointer and the length are those of one slice, which the call only reads.
    unsafe { nimovalsa_check(sheet.as_ptr(), sheet.len()) }
}

pub fn cost(sheet: &[u8], arc: Arc) -> u64 {
    // SAFETY: as above; the other three may be any numbers.
    unsafe { nimovalsa_cost(sheet.as_ptr(), sheet.len(), arc.option, arc.start, arc.end) }
}

pub fn price(sheet: &[u8], plan: &[u8]) -> u64 {
    // SAFETY: each pointer and length are those of one slice, and the call only reads both.
    unsafe { nimovalsa_price(sheet.as_ptr(), sheet.len(), plan.as_ptr(), plan.len()) }
}

pub fn plan(sheet: &[u8], plan: &mut [u8], words: &mut [u64]) -> u64 {
    // SAFETY: as above, but plan and words are written; being borrowed so, they overlap nothing.
    unsafe {
        nimovalsa_plan(
            sheet.as_ptr(),
            sheet.len(),
            plan.as_mut_ptr(),
            plan.len(),
            words.as_mut_ptr(),
            words.len(),
        )
    }
}

pub fn budget(
    sheet: &[u8],
    plan: &[u8],
    general: u64,
    units: &mut [u64],
    cents: &mut [u64],
) -> u64 {
    // SAFETY: as above, but here units and cents are written, and plan is only read.
    unsafe {
        nimovalsa_budget(
            sheet.as_ptr(),
            sheet.len(),
            plan.as_ptr(),
            plan.len(),
            general,
            units.as_mut_ptr(),
            units.len(),
            cents.as_mut_ptr(),
            cents.len(),
        )
    }
}

pub fn factor(rate: u64, year: u64) -> u64 {
    // SAFETY: both may be any numbers.
    unsafe { nimovalsa_factor(rate, year) }
}
