//! The ten header bytes.

use super::cursor::{hex, Cursor, Step, Stop};
use crate::numbers::unsigned;
use crate::refusal::Refusal::*;
use crate::row::LONGEST_FILE;

const HEADER_BYTES: usize = 10;

/// Takes the header.
pub fn take_header<'f>(cursor: &mut Cursor<'f>) -> Step<'f, ()> {
    let file = cursor.file;
    cursor.meet(TooLarge, 0, || {
        let longer = file.len() > LONGEST_FILE;
        longer.then(|| format!("the file has more than {LONGEST_FILE} bytes"))
    })?;
    if file.len() < HEADER_BYTES {
        cursor.meet(PastEnd, 0, || {
            let there = file.len();
            Some(format!(
                "the header takes {HEADER_BYTES} bytes, the file has {there}"
            ))
        })?;
        return Err(Stop::Lost);
    }
    let (platform, version, flags) = (file[3], file[4], file[5]);
    cursor.meet(NotXnb, 0, || {
        let first = &file[..3];
        (first != b"XNB").then(|| format!("the file begins with {}, XNB is 58 4E 42", hex(first)))
    })?;
    cursor.meet(Platform, 3, || {
        let known = b"wmx".contains(&platform);
        (!known).then(|| format!("the platform is {platform:02X}, w, m and x are 77, 6D and 78"))
    })?;
    cursor.meet(FormatVersion, 4, || {
        (version != 5).then(|| format!("the version is {version}; only 5 is taken"))
    })?;
    cursor.meet(Compressed, 5, || {
        let compressed = flags >= 0x80;
        compressed.then(|| format!("the flags are {flags:02X}, bit 80 is set"))
    })?;
    cursor.meet(Flags, 5, || {
        (flags > 1).then(|| format!("the flags are {flags:02X}; only 00 and 01 are taken"))
    })?;
    let length = unsigned(&file[6..10]);
    cursor.meet(FileLength, 6, || {
        let other = length != file.len() as u64;
        other.then(|| {
            format!(
                "the header says {length} bytes, the file has {}",
                file.len()
            )
        })
    })?;
    cursor.at = HEADER_BYTES;
    Ok(())
}
