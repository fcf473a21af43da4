//! The ten header bytes.

use crate::refusal::{
    demand, Refusal, COMPRESSED, FILE_LENGTH, FLAGS, FORMAT_VERSION, NOT_XNB, PAST_END, PLATFORM,
    TOO_LARGE,
};

pub const HEADER_BYTES: usize = 10;
pub const LONGEST_FILE: usize = 16_777_216;

/// Judges the file's length and its header, in the order of 01's table.
pub fn check_header(file: &[u8]) -> Result<(), Refusal> {
    demand(file.len() <= LONGEST_FILE, TOO_LARGE, 0)?;
    demand(file.len() >= HEADER_BYTES, PAST_END, 0)?;
    demand(&file[0..3] == b"XNB", NOT_XNB, 0)?;
    demand(b"wmx".contains(&file[3]), PLATFORM, 3)?;
    demand(file[4] == 5, FORMAT_VERSION, 4)?;
    demand(file[5] & 0x80 == 0, COMPRESSED, 5)?;
    demand(file[5] <= 1, FLAGS, 5)?;
    let length = u32::from_le_bytes([file[6], file[7], file[8], file[9]]);
    demand(length as usize == file.len(), FILE_LENGTH, 6)
}
