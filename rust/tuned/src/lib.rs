//! A tuned plain loader for uncompressed XNB 5 files, in safe Rust.
//!
//! It is what the proved loader's speed is held against: one pass over the file, each row written
//! straight into the lent words, runs of equal values at once, and nothing kept that no answer needs.
//! Its answers are those of the second program (`rust/second`), which its tests compare them with.
#![forbid(unsafe_code)]

mod cursor;
mod enums;
mod graphics;
mod header;
mod kinds;
mod lists;
mod meshes;
mod names;
pub mod pack;
mod readers;
mod refusal;
mod rewrite;
mod types;
mod utf8;
mod values;
mod walk;

pub use refusal::Refusal;
pub use rewrite::rewrite;

use cursor::{Cursor, Padded};
use enums::EnumList;
use header::{check_header, HEADER_BYTES};
use readers::{read_readers, Readers};
use refusal::{refuse, TOO_LARGE};
use walk::Walk;

const WORDS_PER_ROW: usize = 7;
const MOST_ROWS: usize = 65_536;
const MOST_SHARED: u32 = 256;

/// What an accepted file holds.
#[derive(Clone, Copy, Debug, PartialEq, Eq)]
pub struct Loaded {
    pub rows: usize,
    pub readers: usize,
    pub shared: usize,
    /// How many bytes the file's seven-bit numbers have more than their shortest forms.
    pub padding: usize,
}

/// Loads a file into the lent words, seven a row; the other words, and all after a refusal, are zero.
#[inline(never)]
pub fn load(file: &[u8], enums: &[u8], words: &mut [u32]) -> Result<Loaded, Refusal> {
    match read_file::<false>(file, enums, words) {
        Ok((loaded, _)) => Ok(loaded),
        Err(refusal) => {
            words.fill(0);
            Err(refusal)
        }
    }
}

/// Reads a file into the words; `RECORD` says whether its padded numbers are answered too.
///
/// After a refusal the words are left as they happen to be.
#[inline(always)]
fn read_file<const RECORD: bool>(
    file: &[u8],
    enums: &[u8],
    words: &mut [u32],
) -> Result<(Loaded, Vec<Padded>), Refusal> {
    let enums = EnumList::read(enums)?;
    check_header(file)?;
    let mut cursor = Cursor::<RECORD>::new(file, HEADER_BYTES);
    let mut readers = Readers::new();
    if read_readers(&mut cursor, &enums, &mut readers).is_none() {
        return Err(cursor.refusal);
    }
    let place = cursor.at;
    let shared = match cursor.seven() {
        Some(shared) if shared <= MOST_SHARED => shared,
        Some(_) => return refuse(TOO_LARGE, place),
        None => return Err(cursor.refusal),
    };
    let (rows, _) = words.as_chunks_mut::<WORDS_PER_ROW>();
    let room = rows.len().min(MOST_ROWS);
    let mut walk = Walk::new(cursor, &readers, shared, &mut rows[..room]);
    if walk.file().is_none() {
        return Err(walk.cursor.refusal);
    }
    let loaded = Loaded {
        rows: walk.used,
        readers: readers.count(),
        shared: shared as usize,
        padding: walk.cursor.padding as usize,
    };
    let padded = walk.cursor.padded;
    words[WORDS_PER_ROW * loaded.rows..].fill(0);
    Ok((loaded, padded))
}
