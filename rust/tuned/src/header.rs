//! The ten bytes before the reader list.

use crate::refusal::{
    refuse, Refusal, COMPRESSED, FILE_LENGTH, FLAGS, FORMAT_VERSION, NOT_XNB, PAST_END, PLATFORM,
    TOO_LARGE,
};

pub const HEADER_BYTES: usize = 10;
const LONGEST_FILE: usize = 1 << 24;

/// Judges the magic, the platform, the version, the flags and the length, in this order.
pub fn check_header(file: &[u8]) -> Result<(), Refusal> {
    if file.len() > LONGEST_FILE {
        return refuse(TOO_LARGE, 0);
    }
    let Some(header) = file.first_chunk::<HEADER_BYTES>() else {
        return refuse(PAST_END, 0);
    };
    let [magic @ .., platform, version, flags, l0, l1, l2, l3] = header;
    if magic != b"XNB" {
        return refuse(NOT_XNB, 0);
    }
    if !b"wmx".contains(platform) {
        return refuse(PLATFORM, 3);
    }
    if *version != 5 {
        return refuse(FORMAT_VERSION, 4);
    }
    if flags & 0x80 != 0 {
        return refuse(COMPRESSED, 5);
    }
    if *flags > 1 {
        return refuse(FLAGS, 5);
    }
    if u32::from_le_bytes([*l0, *l1, *l2, *l3]) as usize != file.len() {
        return refuse(FILE_LENGTH, 6);
    }
    Ok(())
}
