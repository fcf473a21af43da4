//! Looking up the part of a file that a row names.

use crate::kinds::{INT16, INT32, INT64, SBYTE, STRING, TIME_SPAN};
use crate::refusal::{refuse, Refusal, NO_SUCH_ROW, OTHER_KIND};
use crate::seven::read_seven;
use crate::table::Table;
use crate::ticks::{split_ticks, Time};

/// The part of the file that a row names.
pub fn part<'f>(file: &'f [u8], table: Table, row: usize) -> Result<&'f [u8], Refusal> {
    let Some(found) = table.row(row) else {
        return refuse(NO_SUCH_ROW, row);
    };
    let first = u64::from(found.first);
    let end = first + u64::from(found.length);
    if found.length == 0 || end > file.len() as u64 {
        return refuse(NO_SUCH_ROW, row);
    }
    Ok(&file[first as usize..end as usize])
}

/// The bytes of a text, behind its type id and its count.
pub fn text<'f>(file: &'f [u8], table: Table, row: usize) -> Result<&'f [u8], Refusal> {
    let part = part(file, table, row)?;
    if kind_of(table, row) != Some(STRING) {
        return refuse(OTHER_KIND, row);
    }
    match text_in(part) {
        Some(text) => Ok(text),
        None => refuse(OTHER_KIND, row),
    }
}

/// The text in the part of a String, unless its count is not that of the bytes behind it.
pub fn text_in(part: &[u8]) -> Option<&[u8]> {
    let type_id = read_seven(part).ok()?;
    let behind_id = &part[type_id.width..];
    let count = read_seven(behind_id).ok()?;
    let text = &behind_id[count.width..];
    if count.value as usize == text.len() {
        Some(text)
    } else {
        None
    }
}

/// The signed number in the last bytes of the part.
pub fn signed(file: &[u8], table: Table, row: usize) -> Result<i64, Refusal> {
    let part = part(file, table, row)?;
    let size = match kind_of(table, row) {
        Some(SBYTE) => 1,
        Some(INT16) => 2,
        Some(INT32) => 4,
        Some(INT64 | TIME_SPAN) => 8,
        _ => return refuse(OTHER_KIND, row),
    };
    if part.len() < size {
        return refuse(OTHER_KIND, row);
    }
    Ok(sign_extended(&part[part.len() - size..]))
}

/// The time of a TimeSpan.
pub fn time(file: &[u8], table: Table, row: usize) -> Result<Time, Refusal> {
    let ticks = signed(file, table, row)?;
    if kind_of(table, row) != Some(TIME_SPAN) {
        return refuse(OTHER_KIND, row);
    }
    Ok(split_ticks(ticks))
}

/// The row number behind a row and all below it.
///
/// There is none if the row is not below the room, or if its count is 0 or ends past the room.
pub fn next(table: Table, row: usize) -> Option<usize> {
    let rows = table.row(row)?.rows as usize;
    let behind = row.checked_add(rows)?;
    if rows > 0 && behind <= table.room() {
        Some(behind)
    } else {
        None
    }
}

/// A little-endian number whose top bit is its sign.
fn sign_extended(bytes: &[u8]) -> i64 {
    let negative = bytes[bytes.len() - 1] & 0x80 != 0;
    let mut extended = [if negative { 0xFF } else { 0 }; 8];
    extended[..bytes.len()].copy_from_slice(bytes);
    i64::from_le_bytes(extended)
}

fn kind_of(table: Table, row: usize) -> Option<u32> {
    table.row(row).map(|row| row.kind)
}
