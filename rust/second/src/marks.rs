//! Packs with a mark before each file record, and back: Req 10 of document 02.

use crate::pack::{self, COUNT_BYTES};
use crate::refusal::{refuse, Refusal, OUTPUT_TOO_SMALL};

/// The two bytes before each file record of a marked pack.
pub const MARK: [u8; 2] = [0xFD, 0xFE];
/// Packs of Req 01 have no mark.
const NO_MARK: [u8; 0] = [];

/// Reads a marked pack into the table, as `pack::read` does.
pub fn marked_read(pack: &[u8], table: &mut [u64]) -> Result<usize, Refusal> {
    pack::marked_read(pack, &MARK, table)
}

/// Writes the pack with marks to the start of the output and answers its length.
pub fn mark(pack: &[u8], out: &mut [u8]) -> Result<usize, Refusal> {
    convert(pack, &NO_MARK, &MARK, out)
}

/// Writes the marked pack without its marks to the start of the output and answers its length.
pub fn unmark(pack: &[u8], out: &mut [u8]) -> Result<usize, Refusal> {
    convert(pack, &MARK, &NO_MARK, out)
}

/// Exchanges the mark of each record and copies all else as found.
///
/// The output is untouched after a refusal, and past the new pack.
fn convert(pack: &[u8], old: &[u8], new: &[u8], out: &mut [u8]) -> Result<usize, Refusal> {
    // No table is lent, so there is always room.
    let mut records = Vec::new();
    pack::each_record(pack, old, usize::MAX, |record| records.push(record))?;

    let mut needed = COUNT_BYTES;
    for record in &records {
        needed += new.len() + record.all.len() - old.len();
    }
    if out.len() < needed {
        return refuse(OUTPUT_TOO_SMALL, needed);
    }

    out[..COUNT_BYTES].copy_from_slice(&pack[..COUNT_BYTES]);
    let mut at = COUNT_BYTES;
    for record in &records {
        let behind_mark = record.all.start + old.len()..record.all.end;
        for bytes in [new, &pack[behind_mark]] {
            out[at..at + bytes.len()].copy_from_slice(bytes);
            at += bytes.len();
        }
    }
    Ok(needed)
}
