//! The entries over marked packs as they answer, over slices.

mod entries {
    extern "C" {
        pub fn xnb_marked_read(
            pack: *const u8,
            pack_length: usize,
            table: *mut u64,
            table_length: usize,
            at: *mut u64,
        ) -> u32;
        pub fn xnb_pack_mark(
            pack: *const u8,
            pack_length: usize,
            out: *mut u8,
            out_length: usize,
            at: *mut u64,
        ) -> u32;
        pub fn xnb_pack_unmark(
            pack: *const u8,
            pack_length: usize,
            out: *mut u8,
            out_length: usize,
            at: *mut u64,
        ) -> u32;
    }
}

/// An entry over a pack and one given buffer.
type Entry<T> = unsafe extern "C" fn(*const u8, usize, *mut T, usize, *mut u64) -> u32;

/// The refusal or 0, and the number that the entry writes.
fn call<T>(entry: Entry<T>, pack: &[u8], given: &mut [T]) -> (u32, u64) {
    let mut at = u64::MAX;
    // SAFETY: the pack is a slice that the entry only reads, what is given one that nothing else holds and that it writes;
    // the number is this function's own. It reads and writes nothing else and keeps no pointer.
    let refusal = unsafe {
        entry(
            pack.as_ptr(),
            pack.len(),
            given.as_mut_ptr(),
            given.len(),
            &mut at,
        )
    };
    (refusal, at)
}

/// The refusal or 0, and its place or the number of files.
pub fn read(pack: &[u8], table: &mut [u64]) -> (u32, u64) {
    call(entries::xnb_marked_read, pack, table)
}

/// The refusal or 0, and its place or the output's length.
pub fn mark(pack: &[u8], out: &mut [u8]) -> (u32, u64) {
    call(entries::xnb_pack_mark, pack, out)
}

/// The refusal or 0, and its place or the output's length.
pub fn unmark(pack: &[u8], out: &mut [u8]) -> (u32, u64) {
    call(entries::xnb_pack_unmark, pack, out)
}
