//! The entries over text lists as XML as they answer, over slices.

mod entries {
    extern "C" {
        pub fn xnb_export_xml(
            file: *const u8,
            file_length: usize,
            enums: *const u8,
            enums_length: usize,
            words: *mut u32,
            words_length: usize,
            out: *mut u8,
            out_length: usize,
        ) -> u64;
        pub fn xnb_import_xml(
            xml: *const u8,
            xml_length: usize,
            out: *mut u8,
            out_length: usize,
            at: *mut u64,
        ) -> u32;
    }
}

/// The packed answer; its lower half is the length of the XML, or the place.
pub fn export(file: &[u8], enums: &[u8], words: &mut [u32], out: &mut [u8]) -> u64 {
    // SAFETY: file and enums are slices that the entry only reads, words and output are two that nothing else holds and
    // that it writes; it reads and writes nothing else and keeps no pointer.
    unsafe {
        entries::xnb_export_xml(
            file.as_ptr(),
            file.len(),
            enums.as_ptr(),
            enums.len(),
            words.as_mut_ptr(),
            words.len(),
            out.as_mut_ptr(),
            out.len(),
        )
    }
}

/// The refusal or 0, and its place or the file's length.
pub fn import(xml: &[u8], out: &mut [u8]) -> (u32, u64) {
    let mut at = u64::MAX;
    // SAFETY: the XML is a slice that the entry only reads, the output one that nothing else holds and that it writes,
    // and the number is this function's own; it reads and writes nothing else and keeps no pointer.
    let refusal = unsafe {
        entries::xnb_import_xml(
            xml.as_ptr(),
            xml.len(),
            out.as_mut_ptr(),
            out.len(),
            &mut at,
        )
    };
    (refusal, at)
}
