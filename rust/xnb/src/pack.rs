//! Packs of files.
//!
//! ```
//! use xnb::Pack;
//!
//! let bytes = b"\x02\0\0\0\x04Door\x0D\0\0\0XNBw\x05\x00\x0D\x00\x00\x00\x00\x00\x00\x03log\0\0\0\0";
//! let pack = Pack::read(bytes)?;
//! let paths: Vec<&str> = pack.files().map(|file| file.path).collect();
//! assert_eq!(paths, ["Door", "log"]);
//! assert_eq!(pack.find("LOG"), Some(&b""[..]));
//! assert_eq!(pack.find("window"), None);
//!
//! let door = pack.load("door").expect("the door is there").expect("it is a lawful file");
//! assert_eq!(door.loaded().rows, 1);
//! # Ok::<(), xnb::pack::PackError>(())
//! ```

mod explain;

pub use explain::explain;

use crate::marks;
use crate::memory::{zeros, NotMade, OutOfMemory};
use crate::raw;
use crate::refusal::{Refusal, Refused};
use crate::table::Table;
use std::fmt::{self, Display, Formatter};

/// Path start, path length, data start, data length.
pub const WORDS_PER_FILE: usize = 4;
/// A pack has never more files.
pub const MOST_FILES: usize = 4096;
/// The bytes of the file count.
pub(crate) const COUNT_BYTES: usize = 4;

/// A refusal and its place: a byte of the pack, or the bytes of output or the stretches of a list that are needed.
#[derive(Clone, Copy, Debug, PartialEq, Eq)]
pub struct PackRefused {
    /// The rule that is broken.
    pub refusal: Refusal,
    /// Where, or what is needed.
    pub place: u64,
}

impl PackRefused {
    /// The number behind 0, else the refusal of this number and its place.
    pub(crate) fn number((refusal, at): (u32, u64)) -> Result<usize, PackRefused> {
        if refusal == 0 {
            return Ok(at as usize);
        }
        let refusal = Refusal::of_number(refusal).expect("the library answers with known numbers");
        let place = at;
        Err(PackRefused { refusal, place })
    }

    /// The rule in words, as it is reported of packs.
    pub fn rule(self) -> &'static str {
        match (self.refusal, self.place) {
            (Refusal::PastEnd, _) => "a field runs past the end of the pack",
            (Refusal::TooLarge, 0) => "the pack claims more than 4,096 files",
            (Refusal::TooLarge, _) => "a path is empty or longer than 260 bytes",
            (Refusal::BadValue, _) => "a path is not UTF-8",
            (Refusal::LeftOver, _) => "bytes are left over behind the last file",
            (Refusal::OutputTooSmall, _) => "the output is too small for the new pack",
            (other, _) => other.rule(),
        }
    }
}

impl Display for PackRefused {
    fn fmt(&self, out: &mut Formatter) -> fmt::Result {
        self.refusal.tell(self.rule(), self.place, out)
    }
}

impl std::error::Error for PackRefused {}

/// Why a pack was not read or made: it breaks a rule, or there is no memory for what is made of it.
pub type PackError = NotMade<PackRefused>;

impl From<PackRefused> for PackError {
    fn from(refused: PackRefused) -> PackError {
        PackError::Refused(refused)
    }
}

/// Reads a pack into given words, four to a file, and answers the number of files.
///
/// Words past its files are zero, and all after a refusal.
///
/// ```
/// let mut table = [7; 6];
/// let files = xnb::pack::read(b"\x01\0\0\0\x01a\x02\0\0\0hi", &mut table)?;
/// assert_eq!((files, table), (1, [5, 1, 10, 2, 0, 0]));
///
/// let refused = xnb::pack::read(b"\x01\0\0\0\x01a\x02\0\0\0hi", &mut []).unwrap_err();
/// assert_eq!(refused.to_string(), "the table has no room for a file, at byte 4");
/// # Ok::<(), xnb::pack::PackRefused>(())
/// ```
pub fn read(pack: &[u8], table: &mut [u64]) -> Result<usize, PackRefused> {
    PackRefused::number(raw::pack::read(pack, table))
}

/// The data of the first entry whose path matches, ASCII letters in any case.
///
/// Any words are a table; an entry that runs past the pack never matches.
///
/// ```
/// let pack = b"\x01\0\0\0\x01a\x02\0\0\0hi";
/// assert_eq!(xnb::pack::find(pack, &[5, 1, 10, 2], b"A"), Some(&b"hi"[..]));
/// assert_eq!(xnb::pack::find(pack, &[5, 1, 10, 3], b"A"), None);
/// ```
pub fn find<'p>(pack: &'p [u8], table: &[u64], path: &[u8]) -> Option<&'p [u8]> {
    match raw::pack::find(pack, table, path) {
        (0, _, _) => None,
        (_, first, length) => Some(part(pack, first, length)),
    }
}

/// The part of a pack that an entry of its own table, or a lookup, names.
fn part(pack: &[u8], first: u64, length: u64) -> &[u8] {
    &pack[first as usize..][..length as usize]
}

/// A file of a pack.
#[derive(Clone, Copy, Debug, PartialEq, Eq)]
pub struct PackFile<'p> {
    /// Its path.
    pub path: &'p str,
    /// Its bytes.
    pub data: &'p [u8],
}

/// A pack and the places of its files, in words of its own or in given ones.
#[derive(Clone, Debug)]
pub struct Pack<'p, W = Vec<u64>> {
    bytes: &'p [u8],
    words: W,
    files: usize,
}

impl<'p> Pack<'p> {
    /// Reads a pack with room for all its files.
    pub fn read(bytes: &'p [u8]) -> Result<Pack<'p>, PackError> {
        Ok(Pack::read_into(bytes, words_for(bytes)?)?)
    }

    /// Reads a marked pack with room for all its files.
    pub fn read_marked(bytes: &'p [u8]) -> Result<Pack<'p>, PackError> {
        Ok(Pack::read_by(marks::read, bytes, words_for(bytes)?)?)
    }
}

/// Words for all files of a pack: 128 KB at most, whatever it claims.
fn words_for(pack: &[u8]) -> Result<Vec<u64>, OutOfMemory> {
    zeros(WORDS_PER_FILE * claimed_files(pack))
}

/// The number of files that a pack claims to have, or the most there can be.
pub(crate) fn claimed_files(pack: &[u8]) -> usize {
    let claimed = pack.first_chunk().map_or(0, |it| u32::from_le_bytes(*it));
    MOST_FILES.min(claimed as usize)
}

impl<'p, W: AsRef<[u64]> + AsMut<[u64]>> Pack<'p, W> {
    /// Reads a pack into these words; a file takes four.
    pub fn read_into(bytes: &'p [u8], words: W) -> Result<Pack<'p, W>, PackRefused> {
        Pack::read_by(read, bytes, words)
    }

    /// Reads a pack by the reader of its form.
    fn read_by(
        read: fn(&[u8], &mut [u64]) -> Result<usize, PackRefused>,
        bytes: &'p [u8],
        mut words: W,
    ) -> Result<Pack<'p, W>, PackRefused> {
        let files = read(bytes, words.as_mut())?;
        Ok(Pack {
            bytes,
            words,
            files,
        })
    }
}

impl<'p, W: AsRef<[u64]>> Pack<'p, W> {
    /// The bytes of the pack.
    pub fn bytes(&self) -> &'p [u8] {
        self.bytes
    }

    /// The number of files.
    pub fn len(&self) -> usize {
        self.files
    }

    /// Whether it has no file.
    pub fn is_empty(&self) -> bool {
        self.files == 0
    }

    /// The words of the files.
    pub fn words(&self) -> &[u64] {
        &self.words.as_ref()[..WORDS_PER_FILE * self.files]
    }

    /// Every file in the order of the pack.
    pub fn files(&self) -> impl ExactSizeIterator<Item = PackFile<'p>> + '_ {
        let bytes = self.bytes;
        let (entries, _) = self.words().as_chunks();
        entries
            .iter()
            .map(move |[path, path_length, data, length]| {
                let path = part(bytes, *path, *path_length);
                PackFile {
                    path: std::str::from_utf8(path).expect("a reader takes only UTF-8"),
                    data: part(bytes, *data, *length),
                }
            })
    }

    /// The data of the first file with this path, ASCII letters in any case.
    pub fn find(&self, path: impl AsRef<[u8]>) -> Option<&'p [u8]> {
        find(self.bytes, self.words(), path.as_ref())
    }

    /// Loads the first file with this path; places in its refusal count from the file's start.
    pub fn load(&self, path: impl AsRef<[u8]>) -> Option<Result<Table<'p>, Refused>> {
        self.find(path).map(Table::load)
    }
}
