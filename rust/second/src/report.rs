//! What a season's packs contain: Req 14 of document 02.

use crate::kinds::{IMAGE_LEVEL, STRING};
use crate::load::{read_file, Read};
use crate::lookup::text_in;
use crate::pack::{self, SIZE_BYTES, WORDS_PER_FILE};
use crate::refusal::{refuse, Refusal, FIGURE_TOO_LARGE, NO_ROOM_FOR_ROWS};
use crate::row::Row;
use crate::table::{room, MOST_ROWS};

/// The words of a report.
pub const REPORT_WORDS: usize = 132;
pub const FILES: usize = 0;
pub const ACCEPTED: usize = 1;
pub const TEXT_BYTES: usize = 2;
pub const IMAGE_BYTES: usize = 3;
/// The word of refusal 0, with those of the other numbers below 64 behind it.
pub const REFUSALS: usize = 4;
/// The word of kind 0, with those of the other kinds below 64 behind it.
pub const KINDS: usize = 68;

/// "A value carried from pack to pack, zero at first."
pub type Report = [u64; REPORT_WORDS];

/// "Each XNB file is read with room for 65,536 rows."
const ROWS: usize = MOST_ROWS;

/// Adds the figures of a pack to the report, which is unchanged after a refusal.
///
/// The row table is left zero, the pack table as by its reader, but zero after 71 and 72.
pub fn add(
    pack: &[u8],
    enums: &[u8],
    table: &mut [u64],
    words: &mut [u32],
    report: &mut Report,
) -> Result<(), Refusal> {
    words.fill(0);
    if room(words) < ROWS {
        table.fill(0);
        return refuse(NO_ROOM_FOR_ROWS, 0);
    }
    let files = pack::read(pack, table)?;
    let mut figures = [0; REPORT_WORDS];
    for entry in table.chunks_exact(WORDS_PER_FILE).take(files) {
        let (start, length) = (entry[2] as usize, entry[3] as usize);
        count_file(&pack[start..start + length], enums, &mut figures);
    }
    let answer = sum(report, &figures);
    if answer.is_err() {
        table.fill(0);
    }
    answer
}

/// Adds another report, or changes nothing: "71 at 0 when a figure would pass 2 to the 64 less 1".
pub fn sum(into: &mut Report, other: &Report) -> Result<(), Refusal> {
    let mut sums = *into;
    for (figure, more) in sums.iter_mut().zip(other) {
        match figure.checked_add(*more) {
            Some(sum) => *figure = sum,
            None => return refuse(FIGURE_TOO_LARGE, 0),
        }
    }
    *into = sums;
    Ok(())
}

/// Counts a file; one that does not start with `XNB` counts as a file only.
fn count_file(file: &[u8], enums: &[u8], figures: &mut Report) {
    figures[FILES] += 1;
    if !file.starts_with(b"XNB") {
        return;
    }
    match read_file(file, enums, ROWS) {
        Ok(read) => count_values(file, &read, figures),
        Err(refusal) => figures[REFUSALS + refusal.number as usize] += 1,
    }
}

/// Counts an accepted file's rows, and its "text and image bytes (without counts and sizes)".
fn count_values(file: &[u8], read: &Read, figures: &mut Report) {
    figures[ACCEPTED] += 1;
    for row in &read.rows {
        figures[KINDS + row.kind as usize] += 1;
        match row.kind {
            STRING => figures[TEXT_BYTES] += text_bytes(file, row),
            IMAGE_LEVEL => figures[IMAGE_BYTES] += u64::from(row.length) - SIZE_BYTES as u64,
            _ => {}
        }
    }
}

fn text_bytes(file: &[u8], row: &Row) -> u64 {
    let first = row.first as usize;
    let text = text_in(&file[first..first + row.length as usize]);
    text.map_or(0, |text| text.len() as u64)
}
