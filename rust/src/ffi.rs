//! The five C functions of the proved library, behind safe slices.

#![allow(unsafe_code)]

extern "C" {
    fn pool_build(plan: *const u8, plan_len: usize, buffer: *mut u8, buffer_len: usize) -> u64;
    fn pool_check(plan: *const u8, plan_len: usize, sheet: *const u8, sheet_len: usize) -> u64;
    fn pool_list(
        plan: *const u8,
        plan_len: usize,
        sheet: *const u8,
        sheet_len: usize,
        text: *mut u8,
        text_len: usize,
    ) -> u64;
    fn pool_worth(plan: *const u8, plan_len: usize, team: usize, set: u64) -> u64;
    fn pool_page(
        plan: *const u8,
        plan_len: usize,
        sheet: *const u8,
        sheet_len: usize,
        team: usize,
    ) -> u64;
}

/// Build: L, or 65,536 × number + place.
pub fn build(plan: &[u8], buffer: &mut [u8]) -> u64 {
    // SAFETY: both pointers are good for their lengths, and the slices do not overlap.
    unsafe { pool_build(plan.as_ptr(), plan.len(), buffer.as_mut_ptr(), buffer.len()) }
}

/// Check: 0, or 65,536 × number + place.
pub fn check(plan: &[u8], sheet: &[u8]) -> u64 {
    // SAFETY: both pointers are good for their lengths and are only read.
    unsafe { pool_check(plan.as_ptr(), plan.len(), sheet.as_ptr(), sheet.len()) }
}

/// The weekly listing: its length, or 65,536 × number + place.
pub fn list(plan: &[u8], sheet: &[u8], text: &mut [u8]) -> u64 {
    let (plan_len, sheet_len, text_len) = (plan.len(), sheet.len(), text.len());
    let (plan, sheet, text) = (plan.as_ptr(), sheet.as_ptr(), text.as_mut_ptr());
    // SAFETY: the pointers are good for their lengths; what is written overlaps nothing.
    unsafe { pool_list(plan, plan_len, sheet, sheet_len, text, text_len) }
}

/// Worth: 0 to 64, or 65,536 × number + place.
pub fn worth(plan: &[u8], team: usize, set: u64) -> u64 {
    // SAFETY: the pointer is good for the length and is only read.
    unsafe { pool_worth(plan.as_ptr(), plan.len(), team, set) }
}

/// Page: 65,536 × length + offset, or 0 for the empty page.
pub fn page(plan: &[u8], sheet: &[u8], team: usize) -> u64 {
    let (plan_len, sheet_len) = (plan.len(), sheet.len());
    // SAFETY: both pointers are good for their lengths and are only read.
    unsafe { pool_page(plan.as_ptr(), plan_len, sheet.as_ptr(), sheet_len, team) }
}
