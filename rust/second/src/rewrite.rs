//! Rewriting a file with the shortest seven-bit numbers.

use crate::load::{read_file, Read};
use crate::refusal::{refuse, Refusal, OUTPUT_TOO_SMALL};
use crate::seven::shortest_seven;
use crate::table::{fill, room, Shape};

/// Writes the shortened file to the start of the output and answers its length.
///
/// The words are left as a load of the input leaves them, but all zero after any refusal.
pub fn rewrite(
    file: &[u8],
    enums: &[u8],
    words: &mut [u32],
    out: &mut [u8],
) -> Result<usize, Refusal> {
    let answer = read_file(file, enums, room(words));
    words.fill(0);
    let read = answer?;
    let shortened = shorten(file, &read);
    if out.len() < shortened.len() {
        return refuse(OUTPUT_TOO_SMALL, shortened.len());
    }
    out[..shortened.len()].copy_from_slice(&shortened);
    fill(Shape::Rows, words, &read.rows);
    Ok(shortened.len())
}

/// The file with each seven-bit number in its shortest form and the header's length set anew.
fn shorten(file: &[u8], read: &Read) -> Vec<u8> {
    let mut shortened = Vec::new();
    let mut copied = 0;
    for (place, seven) in &read.sevens {
        shortened.extend_from_slice(&file[copied..*place]);
        shortened.extend_from_slice(&shortest_seven(seven.value));
        copied = place + seven.width;
    }
    shortened.extend_from_slice(&file[copied..]);
    let length = shortened.len() as u32;
    shortened[6..10].copy_from_slice(&length.to_le_bytes());
    shortened
}
