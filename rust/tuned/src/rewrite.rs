//! Rewriting a file with the shortest seven-bit numbers.

use crate::cursor::Padded;
use crate::read_file;
use crate::refusal::{refuse, Refusal, OUTPUT_TOO_SMALL};

/// Writes the shortened file to the start of the output and answers its length.
///
/// The words are left as a load of the file leaves them, but all zero after any refusal.
#[inline(never)]
pub fn rewrite(
    file: &[u8],
    enums: &[u8],
    words: &mut [u32],
    out: &mut [u8],
) -> Result<usize, Refusal> {
    let answer = shorten(file, enums, words, out);
    if answer.is_err() {
        words.fill(0);
    }
    answer
}

fn shorten(file: &[u8], enums: &[u8], words: &mut [u32], out: &mut [u8]) -> Result<usize, Refusal> {
    let (loaded, padded) = read_file::<true>(file, enums, words)?;
    let length = file.len() - loaded.padding;
    let Some(out) = out.get_mut(..length) else {
        return refuse(OUTPUT_TOO_SMALL, length);
    };
    if padded.is_empty() {
        out.copy_from_slice(file);
    } else {
        copy_shortened(file, &padded, out);
        out[6..10].copy_from_slice(&(length as u32).to_le_bytes());
    }
    Ok(length)
}

/// Copies the file with each of these numbers in its shortest form.
fn copy_shortened(file: &[u8], padded: &[Padded], out: &mut [u8]) {
    let (mut from, mut to) = (0, 0);
    for number in padded {
        let at = number.at as usize;
        let end = to + (at - from);
        out[to..end].copy_from_slice(&file[from..at]);
        to = end;
        let mut rest = number.value;
        while rest >= 0x80 {
            out[to] = rest as u8 | 0x80;
            rest >>= 7;
            to += 1;
        }
        out[to] = rest as u8;
        to += 1;
        from = at + number.width as usize;
    }
    out[to..].copy_from_slice(&file[from..]);
}
