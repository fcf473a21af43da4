//! The entries over packs of files as they answer, over slices.

mod entries {
    extern "C" {
        pub fn xnb_pack_read(
            pack: *const u8,
            pack_length: usize,
            table: *mut u64,
            table_length: usize,
            at: *mut u64,
        ) -> u32;
        pub fn xnb_pack_find(
            pack: *const u8,
            pack_length: usize,
            table: *const u64,
            table_length: usize,
            path: *const u8,
            path_length: usize,
            first: *mut u64,
            length: *mut u64,
        ) -> u32;
    }
}

/// The refusal or 0, and its place or the number of files.
pub fn read(pack: &[u8], table: &mut [u64]) -> (u32, u64) {
    let mut at = u64::MAX;
    // SAFETY: the pack is a slice that the entry only reads, the table one that nothing else holds and that it fills; the
    // number is this function's own. It reads and writes nothing else and keeps no pointer.
    let refusal = unsafe {
        entries::xnb_pack_read(
            pack.as_ptr(),
            pack.len(),
            table.as_mut_ptr(),
            table.len(),
            &mut at,
        )
    };
    (refusal, at)
}

/// 1 with the start and the length of the data where the path is found, else three zeros.
pub fn find(pack: &[u8], table: &[u64], path: &[u8]) -> (u32, u64, u64) {
    let (mut first, mut length) = (u64::MAX, u64::MAX);
    // SAFETY: pack, table and path are slices that the entry only reads, of any content; it writes the two numbers of this
    // function and keeps no pointer.
    let found = unsafe {
        entries::xnb_pack_find(
            pack.as_ptr(),
            pack.len(),
            table.as_ptr(),
            table.len(),
            path.as_ptr(),
            path.len(),
            &mut first,
            &mut length,
        )
    };
    (found, first, length)
}
