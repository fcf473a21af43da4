//! The entry over damaged marked packs as it answers, over slices.

mod entries {
    extern "C" {
        pub fn xnb_pack_salvage(
            pack: *const u8,
            pack_length: usize,
            out: *mut u8,
            out_length: usize,
            list: *mut u64,
            list_length: usize,
            at: *mut u64,
            stretches: *mut u64,
        ) -> u32;
    }
}

/// The refusal or 0, its place or the output's length, and the number of stretches in the list.
pub fn salvage(pack: &[u8], out: &mut [u8], list: &mut [u64]) -> (u32, u64, u64) {
    let (mut at, mut stretches) = (u64::MAX, u64::MAX);
    // SAFETY: the pack is a slice that the entry only reads, output and list are two that nothing else holds and that it
    // writes; the numbers are this function's own. It reads and writes nothing else and keeps no pointer.
    let refusal = unsafe {
        entries::xnb_pack_salvage(
            pack.as_ptr(),
            pack.len(),
            out.as_mut_ptr(),
            out.len(),
            list.as_mut_ptr(),
            list.len(),
            &mut at,
            &mut stretches,
        )
    };
    (refusal, at, stretches)
}
