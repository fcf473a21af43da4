//! Packs of files (Req 01): their tables.

use crate::refusal::{
    refuse, Refusal, BAD_VALUE, BROKEN_NUMBER, LEFT_OVER, NO_TABLE_ROOM, PAST_END, TOO_LARGE,
};
use crate::utf8::is_text;

const MOST_FILES: usize = 4096;
const LONGEST_PATH: usize = 260;

/// Path start, path length, data start, data length.
type Entry = [u64; 4];

/// Reads a pack into the table, four words a file, and answers the number of files.
///
/// Unused words, and all after a refusal, are zero.
#[inline(never)]
pub fn read(pack: &[u8], table: &mut [u64]) -> Result<usize, Refusal> {
    let answer = read_table(pack, table);
    if answer.is_err() {
        table.fill(0);
    }
    answer
}

fn read_table(pack: &[u8], table: &mut [u64]) -> Result<usize, Refusal> {
    let count = number_at(pack, 0)?;
    if count > MOST_FILES {
        return refuse(TOO_LARGE, 0);
    }
    let (entries, _) = table.as_chunks_mut();
    let room = entries.len();
    let mut at = 4;
    for entry in &mut entries[..count.min(room)] {
        (*entry, at) = record_at(pack, at)?;
    }
    if count > room {
        return refuse(NO_TABLE_ROOM, at);
    }
    if at != pack.len() {
        return refuse(LEFT_OVER, at);
    }
    table[4 * count..].fill(0);
    Ok(count)
}

/// The record that starts here, and the place behind it.
#[inline(always)]
fn record_at(pack: &[u8], at: usize) -> Result<(Entry, usize), Refusal> {
    // Everything that can be wrong with a path is placed at its count.
    let (length, path_at) = match pack.get(at) {
        Some(&byte) if byte < 0x80 => (usize::from(byte), at + 1),
        _ => long_seven(pack, at)?,
    };
    if length == 0 || length > LONGEST_PATH {
        return refuse(TOO_LARGE, at);
    }
    let Some(path) = pack[path_at..].get(..length) else {
        return refuse(PAST_END, at);
    };
    if !is_text(path) {
        return refuse(BAD_VALUE, at);
    }
    // Missing data is placed at its size.
    let size_at = path_at + length;
    let size = number_at(pack, size_at)?;
    let data_at = size_at + 4;
    if size > pack.len() - data_at {
        return refuse(PAST_END, size_at);
    }
    let entry = [path_at, length, data_at, size].map(|word| word as u64);
    Ok((entry, data_at + size))
}

/// The 4-byte number at a place, which is not past the end.
#[inline(always)]
fn number_at(pack: &[u8], place: usize) -> Result<usize, Refusal> {
    match pack[place..].first_chunk() {
        Some(bytes) => Ok(u32::from_le_bytes(*bytes) as usize),
        None => refuse(PAST_END, place),
    }
}

/// A seven-bit number of more than one byte, and the place behind it.
#[inline(never)]
fn long_seven(pack: &[u8], at: usize) -> Result<(usize, usize), Refusal> {
    let mut value = 0;
    for i in 0..5 {
        let Some(&byte) = pack.get(at + i) else {
            return refuse(PAST_END, at);
        };
        if i == 4 && byte > 0x0F {
            break;
        }
        value |= usize::from(byte & 0x7F) << (7 * i);
        if byte < 0x80 {
            return Ok((value, at + i + 1));
        }
    }
    refuse(BROKEN_NUMBER, at)
}
