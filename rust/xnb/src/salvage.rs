//! What a damaged marked pack still holds.

use crate::memory::{with_room, zeros};
use crate::pack::{claimed_files, PackError, PackRefused, COUNT_BYTES, MOST_FILES};
use crate::raw;

/// Start and length of a skipped stretch.
pub const WORDS_PER_STRETCH: usize = 2;
/// A salvage never skips more stretches: one before each record and one behind the last.
pub const MOST_STRETCHES: usize = MOST_FILES + 1;

/// A part of a damaged pack that is in no kept record.
#[derive(Clone, Copy, Debug, PartialEq, Eq)]
pub struct Stretch {
    /// The place of its first byte.
    pub start: u64,
    /// Its number of bytes.
    pub length: u64,
}

/// The kept records as a marked pack, and what was skipped, in the order of the damaged pack.
#[derive(Clone, Debug, PartialEq, Eq)]
pub struct Salvaged {
    /// The new marked pack.
    pub pack: Vec<u8>,
    /// What is not in it.
    pub skipped: Vec<Stretch>,
}

impl Salvaged {
    /// The number of kept records.
    pub fn records(&self) -> usize {
        claimed_files(&self.pack)
    }

    /// The bytes of the kept records, with their marks.
    pub fn kept_bytes(&self) -> usize {
        self.pack.len() - COUNT_BYTES
    }

    /// The bytes of the skipped stretches.
    pub fn skipped_bytes(&self) -> u64 {
        self.skipped.iter().map(|stretch| stretch.length).sum()
    }
}

/// What a salvage wrote to given buffers.
#[derive(Clone, Copy, Debug, PartialEq, Eq)]
pub struct Written {
    /// The length of the new pack.
    pub length: usize,
    /// The number of stretches in the list.
    pub stretches: usize,
}

impl Written {
    /// The stretches of the list.
    pub fn skipped(self, list: &[u64]) -> impl Iterator<Item = Stretch> + '_ {
        stretches(list).take(self.stretches)
    }
}

/// Keeps every whole record of a damaged marked pack, up to 4,096, and reports what is skipped.
///
/// A pack of fewer than four bytes is refused, and no other. Kept records, skipped stretches and
/// the four bytes of the file count make up the damaged pack.
///
/// ```
/// use xnb::salvage::{salvage, Stretch};
///
/// let damaged = b"\x02\0\0\0\xFD\xFF\x01a\0\0\0\0\xFD\xFE\x01b\x02\0\0\0hi";
/// let salvaged = salvage(damaged)?;
/// assert_eq!(salvaged.pack, b"\x01\0\0\0\xFD\xFE\x01b\x02\0\0\0hi");
/// assert_eq!(salvaged.skipped, [Stretch { start: 4, length: 8 }]);
///
/// let pack = xnb::Pack::read_marked(&salvaged.pack)?;
/// assert_eq!(pack.find("b"), Some(&b"hi"[..]));
/// # Ok::<(), xnb::pack::PackError>(())
/// ```
pub fn salvage(pack: &[u8]) -> Result<Salvaged, PackError> {
    // The new pack is never longer than the damaged one, and no stretch is empty.
    let mut out = zeros(pack.len())?;
    let mut list = zeros(WORDS_PER_STRETCH * MOST_STRETCHES.min(pack.len()))?;
    let written = salvage_into(pack, &mut out, &mut list)?;
    out.truncate(written.length);
    let mut skipped = with_room(written.stretches)?;
    skipped.extend(written.skipped(&list));
    Ok(Salvaged { pack: out, skipped })
}

/// Writes the kept records to the start of the output and the stretches to the start of the list.
///
/// Both are untouched after a refusal, and behind what is written.
///
/// ```
/// let damaged = b"\x02\0\0\0?\xFD\xFE\x01b\x02\0\0\0hi";
/// let (mut out, mut list) = ([0; 14], [0; 2]);
/// let written = xnb::salvage::salvage_into(damaged, &mut out, &mut list)?;
/// assert_eq!((written.length, written.stretches), (14, 1));
/// assert_eq!(list, [4, 1]);
///
/// let refused = xnb::salvage::salvage_into(damaged, &mut out, &mut []).unwrap_err();
/// let words = "the list is too short for the skipped stretches, which are 1";
/// assert_eq!(refused.to_string(), words);
/// # Ok::<(), xnb::pack::PackRefused>(())
/// ```
pub fn salvage_into(pack: &[u8], out: &mut [u8], list: &mut [u64]) -> Result<Written, PackRefused> {
    let (refusal, at, stretches) = raw::salvage::salvage(pack, out, list);
    Ok(Written {
        length: PackRefused::number((refusal, at))?,
        stretches: stretches as usize,
    })
}

/// The stretches of a list.
fn stretches(list: &[u64]) -> impl Iterator<Item = Stretch> + '_ {
    let (pairs, _) = list.as_chunks();
    pairs
        .iter()
        .map(|&[start, length]| Stretch { start, length })
}
