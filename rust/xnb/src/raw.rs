//! The entries of the static library as they answer, over slices.
//!
//! The first number of each answer is as `crates/builder/xnb.h` has it; what the entry writes
//! through its other pointers follows. Those numbers start as all ones, so that one which the
//! entry did not write shows.

pub mod marks;
pub mod pack;
pub mod report;
pub mod salvage;
pub mod xml;

use crate::shape::Shape;

mod entries {
    extern "C" {
        pub fn xnb_version() -> u32;
        pub fn xnb_load(file: *const u8, file_length: usize) -> u64;
        pub fn xnb_load_rows(
            file: *const u8,
            file_length: usize,
            enums: *const u8,
            enums_length: usize,
            words: *mut u32,
            words_length: usize,
            readers: *mut u32,
            shared: *mut u32,
            padding: *mut u32,
        ) -> u64;
        pub fn xnb_rewrite(
            file: *const u8,
            file_length: usize,
            enums: *const u8,
            enums_length: usize,
            words: *mut u32,
            words_length: usize,
            out: *mut u8,
            out_length: usize,
        ) -> u64;
        pub fn xnb_part(
            file: *const u8,
            file_length: usize,
            words: *const u32,
            words_length: usize,
            row: u32,
            first: *mut usize,
            length: *mut usize,
        ) -> u32;
        pub fn xnb_text(
            file: *const u8,
            file_length: usize,
            words: *const u32,
            words_length: usize,
            row: u32,
            first: *mut usize,
            length: *mut usize,
        ) -> u32;
        pub fn xnb_signed(
            file: *const u8,
            file_length: usize,
            words: *const u32,
            words_length: usize,
            row: u32,
            value: *mut i64,
        ) -> u32;
        pub fn xnb_time(
            file: *const u8,
            file_length: usize,
            words: *const u32,
            words_length: usize,
            row: u32,
            seconds: *mut i64,
            ticks: *mut u32,
        ) -> u32;
        pub fn xnb_next(words: *const u32, words_length: usize, row: u32) -> u32;
        pub fn xnb_load_columns(
            file: *const u8,
            file_length: usize,
            enums: *const u8,
            enums_length: usize,
            words: *mut u32,
            words_length: usize,
            readers: *mut u32,
            shared: *mut u32,
            padding: *mut u32,
        ) -> u64;
        pub fn xnb_columns_part(
            file: *const u8,
            file_length: usize,
            words: *const u32,
            words_length: usize,
            row: u32,
            first: *mut usize,
            length: *mut usize,
        ) -> u32;
        pub fn xnb_columns_text(
            file: *const u8,
            file_length: usize,
            words: *const u32,
            words_length: usize,
            row: u32,
            first: *mut usize,
            length: *mut usize,
        ) -> u32;
        pub fn xnb_columns_signed(
            file: *const u8,
            file_length: usize,
            words: *const u32,
            words_length: usize,
            row: u32,
            value: *mut i64,
        ) -> u32;
        pub fn xnb_columns_time(
            file: *const u8,
            file_length: usize,
            words: *const u32,
            words_length: usize,
            row: u32,
            seconds: *mut i64,
            ticks: *mut u32,
        ) -> u32;
        pub fn xnb_columns_next(words: *const u32, words_length: usize, row: u32) -> u32;
        pub fn xnb_load_driver(
            file: *const u8,
            file_length: usize,
            enums: *const u8,
            enums_length: usize,
            words: *mut u32,
            words_length: usize,
            readers: *mut u32,
            shared: *mut u32,
            padding: *mut u32,
        ) -> u64;
    }
}

/// The version of the library that is linked: 10,000 times the first number, plus 100 times the second, plus the third.
pub fn version() -> u32 {
    // SAFETY: the entry takes nothing, reads nothing and writes nothing.
    unsafe { entries::xnb_version() }
}

/// The asset builder's number.
pub fn load(file: &[u8]) -> u64 {
    // SAFETY: pointer and length are those of one slice, which the entry only reads; it keeps no pointer.
    unsafe { entries::xnb_load(file.as_ptr(), file.len()) }
}

/// What a load answers.
#[derive(Clone, Copy, Debug, PartialEq, Eq)]
pub struct LoadAnswer {
    /// The packed answer; its lower half is the number of rows, or the place.
    pub packed: u64,
    /// The reader count, or 0.
    pub readers: u32,
    /// The shared count, or 0.
    pub shared: u32,
    /// How many bytes the seven-bit numbers have more than their shortest forms, or 0.
    pub padding: u32,
}

/// Loads into given words, with a list of enum types.
pub fn load_table(shape: Shape, file: &[u8], enums: &[u8], words: &mut [u32]) -> LoadAnswer {
    let entry = match shape {
        Shape::Rows => entries::xnb_load_rows,
        Shape::Columns => entries::xnb_load_columns,
    };
    call_load(entry, file, enums, words)
}

/// Loads a file for the driver's own screen into given words, by rows.
pub fn load_driver(file: &[u8], enums: &[u8], words: &mut [u32]) -> LoadAnswer {
    call_load(entries::xnb_load_driver, file, enums, words)
}

/// An entry that loads.
type Load = unsafe extern "C" fn(
    *const u8,
    usize,
    *const u8,
    usize,
    *mut u32,
    usize,
    *mut u32,
    *mut u32,
    *mut u32,
) -> u64;

fn call_load(entry: Load, file: &[u8], enums: &[u8], words: &mut [u32]) -> LoadAnswer {
    let (mut readers, mut shared, mut padding) = (u32::MAX, u32::MAX, u32::MAX);
    // SAFETY: file and enums are slices that the entry only reads, the words are one that nothing else holds and that it
    // fills; the three numbers are this function's own. It reads and writes nothing else and keeps no pointer.
    let packed = unsafe {
        entry(
            file.as_ptr(),
            file.len(),
            enums.as_ptr(),
            enums.len(),
            words.as_mut_ptr(),
            words.len(),
            &mut readers,
            &mut shared,
            &mut padding,
        )
    };
    LoadAnswer {
        packed,
        readers,
        shared,
        padding,
    }
}

/// The packed answer; its lower half is the new length, or the place.
pub fn rewrite(file: &[u8], enums: &[u8], words: &mut [u32], out: &mut [u8]) -> u64 {
    // SAFETY: file and enums are slices that the entry only reads, words and output are two that nothing else holds and
    // that it writes; it reads and writes nothing else and keeps no pointer.
    unsafe {
        entries::xnb_rewrite(
            file.as_ptr(),
            file.len(),
            enums.as_ptr(),
            enums.len(),
            words.as_mut_ptr(),
            words.len(),
            out.as_mut_ptr(),
            out.len(),
        )
    }
}

/// An entry that answers with two numbers behind the refusal.
type Lookup<A, B> =
    unsafe extern "C" fn(*const u8, usize, *const u32, usize, u32, *mut A, *mut B) -> u32;

/// The refusal or 0, and the two numbers that the entry writes over those given.
fn look_up<A, B>(
    entry: Lookup<A, B>,
    file: &[u8],
    words: &[u32],
    row: u32,
    (mut one, mut two): (A, B),
) -> (u32, A, B) {
    let (bytes, rows) = (file.as_ptr(), words.as_ptr());
    // SAFETY: file and words are slices that the entry only reads, of any content; it writes the two numbers of this
    // function, whose types `Lookup` holds to the entry's, and keeps no pointer.
    let refusal = unsafe {
        entry(
            bytes,
            file.len(),
            rows,
            words.len(),
            row,
            &mut one,
            &mut two,
        )
    };
    (refusal, one, two)
}

/// The refusal or 0, and the first byte and the length of the row's part.
#[inline]
pub fn part(shape: Shape, file: &[u8], words: &[u32], row: u32) -> (u32, usize, usize) {
    let entry = match shape {
        Shape::Rows => entries::xnb_part,
        Shape::Columns => entries::xnb_columns_part,
    };
    look_up(entry, file, words, row, (usize::MAX, usize::MAX))
}

/// The refusal or 0, and the first byte and the length of the text.
#[inline]
pub fn text(shape: Shape, file: &[u8], words: &[u32], row: u32) -> (u32, usize, usize) {
    let entry = match shape {
        Shape::Rows => entries::xnb_text,
        Shape::Columns => entries::xnb_columns_text,
    };
    look_up(entry, file, words, row, (usize::MAX, usize::MAX))
}

/// The refusal or 0, and the number.
#[inline]
pub fn signed(shape: Shape, file: &[u8], words: &[u32], row: u32) -> (u32, i64) {
    let entry = match shape {
        Shape::Rows => entries::xnb_signed,
        Shape::Columns => entries::xnb_columns_signed,
    };
    let mut value = -1;
    let (bytes, rows) = (file.as_ptr(), words.as_ptr());
    // SAFETY: file and words are slices that the entry only reads, of any content; it writes this function's number and
    // keeps no pointer.
    let refusal = unsafe { entry(bytes, file.len(), rows, words.len(), row, &mut value) };
    (refusal, value)
}

/// The refusal or 0, and the seconds and ticks.
#[inline]
pub fn time(shape: Shape, file: &[u8], words: &[u32], row: u32) -> (u32, i64, u32) {
    let entry = match shape {
        Shape::Rows => entries::xnb_time,
        Shape::Columns => entries::xnb_columns_time,
    };
    look_up(entry, file, words, row, (-1, u32::MAX))
}

/// The row number behind the row and all below it, or 0.
#[inline]
pub fn next(shape: Shape, words: &[u32], row: u32) -> u32 {
    let entry = match shape {
        Shape::Rows => entries::xnb_next,
        Shape::Columns => entries::xnb_columns_next,
    };
    // SAFETY: pointer and length are those of one slice of any content, which the entry only reads; it keeps no pointer.
    unsafe { entry(words.as_ptr(), words.len(), row) }
}
