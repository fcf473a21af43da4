//! Packs of files, by document 003 and Req 01 of document 02.
//!
//! A pack is a 4-byte file count, then per file a text path, a 4-byte size and the data.
//! Each file's record may begin with a mark, as in Req 10; in Req 01 the mark is empty.

use crate::refusal::{demand, refuse, Refusal, BAD_VALUE, LEFT_OVER, PAST_END, TOO_LARGE};
use crate::seven::read_seven;
use crate::utf8::is_text;
use std::ops::Range;

/// Path start, path length, data start, data length.
pub const WORDS_PER_FILE: usize = 4;
pub const MOST_FILES: usize = 4096;
pub const LONGEST_PATH: usize = 260;
pub const COUNT_BYTES: usize = 4;
pub const SIZE_BYTES: usize = 4;

pub const NO_TABLE_ROOM: u32 = 31;
pub const MISSING_MARK: u32 = 51;

/// A file's record in a pack: its bytes from its mark on, its path and its data.
pub struct Record {
    pub all: Range<usize>,
    pub path: Range<usize>,
    pub data: Range<usize>,
}

/// Reads a pack into the table, four words a file, and answers the number of files.
///
/// Unused words, and all on refusal, are zero.
pub fn read(pack: &[u8], table: &mut [u64]) -> Result<usize, Refusal> {
    marked_read(pack, &[], table)
}

/// The same where each record begins with this mark.
pub fn marked_read(pack: &[u8], mark: &[u8], table: &mut [u64]) -> Result<usize, Refusal> {
    table.fill(0);
    let room = table.len() / WORDS_PER_FILE;
    let mut next = 0;
    let answer = each_record(pack, mark, room, |record| {
        let (path, data) = (record.path, record.data);
        let words = [path.start, path.len(), data.start, data.len()];
        for word in words {
            table[next] = word as u64;
            next += 1;
        }
    });
    if answer.is_err() {
        table.fill(0);
    }
    answer
}

/// Reads a pack from end to end and hands on its records in order; answers their number.
pub fn each_record(
    pack: &[u8],
    mark: &[u8],
    room: usize,
    mut hand_on: impl FnMut(Record),
) -> Result<usize, Refusal> {
    let count = number_at(pack, 0)?;
    demand(count <= MOST_FILES, TOO_LARGE, 0)?;
    let mut at = COUNT_BYTES;
    for file in 0..count {
        demand(file < room, NO_TABLE_ROOM, at)?;
        let record = record(pack, mark, at)?;
        at = record.all.end;
        hand_on(record);
    }
    demand(at == pack.len(), LEFT_OVER, at)?;
    Ok(count)
}

/// Reads the record that starts here: mark, path, size, data.
pub fn record(pack: &[u8], mark: &[u8], start: usize) -> Result<Record, Refusal> {
    let rest = &pack[start..];
    demand(rest.len() >= mark.len(), PAST_END, start)?;
    let is_marked = mark.iter().zip(rest).all(|(due, found)| due == found);
    demand(is_marked, MISSING_MARK, start)?;

    // Everything that can be wrong with a path is placed at its count.
    let count_at = start + mark.len();
    let length = match read_seven(&pack[count_at..]) {
        Ok(length) => length,
        Err(number) => return refuse(number, count_at),
    };
    let path_at = count_at + length.width;
    let path_length = length.value as usize;
    let lawful_length = (1..=LONGEST_PATH).contains(&path_length);
    demand(lawful_length, TOO_LARGE, count_at)?;
    demand(path_length <= pack.len() - path_at, PAST_END, count_at)?;
    let path = path_at..path_at + path_length;
    demand(is_text(&pack[path.clone()]), BAD_VALUE, count_at)?;

    // Missing data is placed at its size.
    let size_at = path.end;
    let size = number_at(pack, size_at)?;
    let data_at = size_at + SIZE_BYTES;
    demand(size <= pack.len() - data_at, PAST_END, size_at)?;
    let data = data_at..data_at + size;
    Ok(Record {
        all: start..data.end,
        path,
        data,
    })
}

/// The 4-byte number at a place, which is not past the end.
fn number_at(pack: &[u8], place: usize) -> Result<usize, Refusal> {
    match pack[place..].first_chunk() {
        Some(bytes) => Ok(u32::from_le_bytes(*bytes) as usize),
        None => refuse(PAST_END, place),
    }
}

/// The data of the first entry whose path matches, in any words as a table.
pub fn find<'p>(pack: &'p [u8], table: &[u64], path: &[u8]) -> Option<&'p [u8]> {
    for entry in table.chunks_exact(WORDS_PER_FILE) {
        let entry_path = part(pack, entry[0], entry[1]);
        let data = part(pack, entry[2], entry[3]);
        if let (Some(entry_path), Some(data)) = (entry_path, data) {
            if !entry_path.is_empty() && same_path(entry_path, path) {
                return Some(data);
            }
        }
    }
    None
}

/// The part of the pack with this start and length, unless it runs past the pack.
fn part(pack: &[u8], start: u64, length: u64) -> Option<&[u8]> {
    let from_start = pack.get(usize::try_from(start).ok()?..)?;
    from_start.get(..usize::try_from(length).ok()?)
}

/// Paths are compared after lowering ASCII letters.
fn same_path(one: &[u8], other: &[u8]) -> bool {
    one.len() == other.len()
        && one
            .iter()
            .zip(other)
            .all(|(one, other)| lowered(*one) == lowered(*other))
}

fn lowered(byte: u8) -> u8 {
    match byte {
        b'A'..=b'Z' => byte - b'A' + b'a',
        _ => byte,
    }
}
