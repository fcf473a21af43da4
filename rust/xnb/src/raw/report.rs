//! The entries over reports as they answer, over slices.

use crate::report::REPORT_WORDS;

mod entries {
    use super::REPORT_WORDS;

    extern "C" {
        pub fn xnb_report_add(
            pack: *const u8,
            pack_length: usize,
            enums: *const u8,
            enums_length: usize,
            table: *mut u64,
            table_length: usize,
            words: *mut u32,
            words_length: usize,
            report: *mut [u64; REPORT_WORDS],
            at: *mut u64,
        ) -> u32;
        pub fn xnb_report_sum(
            into: *mut [u64; REPORT_WORDS],
            other: *const [u64; REPORT_WORDS],
        ) -> u32;
    }
}

/// The refusal or 0, and its place or 0.
pub fn add(
    pack: &[u8],
    enums: &[u8],
    table: &mut [u64],
    words: &mut [u32],
    report: &mut [u64; REPORT_WORDS],
) -> (u32, u64) {
    let mut at = u64::MAX;
    // SAFETY: pack and enums are slices that the entry only reads, table and words are two that nothing else holds and that
    // it writes, as it does the report, which is of the length that it asks for, and this function's own number; it reads
    // and writes nothing else and keeps no pointer.
    let refusal = unsafe {
        entries::xnb_report_add(
            pack.as_ptr(),
            pack.len(),
            enums.as_ptr(),
            enums.len(),
            table.as_mut_ptr(),
            table.len(),
            words.as_mut_ptr(),
            words.len(),
            report,
            &mut at,
        )
    };
    (refusal, at)
}

/// The refusal or 0.
pub fn sum(into: &mut [u64; REPORT_WORDS], other: &[u64; REPORT_WORDS]) -> u32 {
    // SAFETY: both reports are of the length that the entry asks for; it writes the one, which nothing else holds, and only
    // reads the other, and keeps no pointer.
    unsafe { entries::xnb_report_sum(into, other) }
}
