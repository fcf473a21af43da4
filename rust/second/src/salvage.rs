//! What a damaged marked pack still holds: Req 11 of document 02.

use crate::marks::MARK;
use crate::pack::{record, COUNT_BYTES, MOST_FILES};
use crate::refusal::{demand, refuse, Refusal, OUTPUT_TOO_SMALL, PAST_END};
use std::ops::Range;

/// Start and length of a skipped stretch.
pub const WORDS_PER_STRETCH: usize = 2;
pub const LIST_TOO_SHORT: u32 = 52;

/// The length of the pack that was written, and the number of skipped stretches.
#[derive(Clone, Copy, Debug, PartialEq, Eq)]
pub struct Salvaged {
    pub length: usize,
    pub stretches: usize,
}

/// Writes a marked pack of the whole records to the output, and the skipped stretches to the list.
///
/// Both are untouched after a refusal, and past what is written.
pub fn salvage(pack: &[u8], out: &mut [u8], list: &mut [u64]) -> Result<Salvaged, Refusal> {
    demand(pack.len() >= COUNT_BYTES, PAST_END, 0)?;
    let (kept, skipped) = scan(pack);

    let kept_bytes: usize = kept.iter().map(Range::len).sum();
    let length = COUNT_BYTES + kept_bytes;
    demand(length <= out.len(), OUTPUT_TOO_SMALL, length)?;
    let stretches = skipped.len();
    if list.len() / WORDS_PER_STRETCH < stretches {
        return refuse(LIST_TOO_SHORT, stretches);
    }

    let count = kept.len() as u32;
    out[..COUNT_BYTES].copy_from_slice(&count.to_le_bytes());
    let mut at = COUNT_BYTES;
    for record in kept {
        let end = at + record.len();
        out[at..end].copy_from_slice(&pack[record]);
        at = end;
    }
    for (stretch, words) in skipped.iter().zip(list.chunks_exact_mut(WORDS_PER_STRETCH)) {
        words[0] = stretch.start as u64;
        words[1] = stretch.len() as u64;
    }
    Ok(Salvaged { length, stretches })
}

/// The kept records and the skipped stretches, in file order.
fn scan(pack: &[u8]) -> (Vec<Range<usize>>, Vec<Range<usize>>) {
    let mut kept = Vec::new();
    let mut skipped = Vec::new();
    let mut at = COUNT_BYTES;
    while at < pack.len() && kept.len() < MOST_FILES {
        match record(pack, &MARK, at) {
            Ok(whole) => {
                at = whole.all.end;
                kept.push(whole.all);
            }
            Err(_) => {
                skip(&mut skipped, at..at + 1);
                at += 1;
            }
        }
    }
    if at < pack.len() {
        skip(&mut skipped, at..pack.len());
    }
    (kept, skipped)
}

/// Adds a stretch, joined to the last one where they touch.
fn skip(skipped: &mut Vec<Range<usize>>, stretch: Range<usize>) {
    match skipped.last_mut() {
        Some(last) if last.end == stretch.start => last.end = stretch.end,
        _ => skipped.push(stretch),
    }
}
