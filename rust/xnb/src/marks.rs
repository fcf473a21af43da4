//! Packs with a mark before each file record, and back.
//!
//! ```
//! let pack = b"\x01\0\0\0\x01a\x02\0\0\0hi";
//! let marked = xnb::marks::mark(pack)?;
//! assert_eq!(marked, b"\x01\0\0\0\xFD\xFE\x01a\x02\0\0\0hi");
//! assert_eq!(xnb::marks::unmark(&marked)?, pack);
//!
//! let marked = xnb::Pack::read_marked(&marked)?;
//! assert_eq!(marked.find("A"), Some(&b"hi"[..]));
//! # Ok::<(), xnb::pack::PackError>(())
//! ```

use crate::memory::zeros;
use crate::pack::{claimed_files, PackError, PackRefused};
use crate::raw;

/// What is before each record of a marked pack.
pub const MARK: [u8; 2] = [0xFD, 0xFE];

/// Reads a marked pack into given words, as `pack::read` does.
pub fn read(pack: &[u8], table: &mut [u64]) -> Result<usize, PackRefused> {
    PackRefused::number(raw::marks::read(pack, table))
}

/// How many bytes a pack has at most in either form.
pub fn longest(pack: &[u8]) -> usize {
    pack.len() + MARK.len() * claimed_files(pack)
}

/// The pack with marks.
pub fn mark(pack: &[u8]) -> Result<Vec<u8>, PackError> {
    let mut out = zeros(longest(pack))?;
    let length = mark_into(pack, &mut out)?;
    out.truncate(length);
    Ok(out)
}

/// The marked pack without its marks.
pub fn unmark(pack: &[u8]) -> Result<Vec<u8>, PackError> {
    let mut out = zeros(pack.len())?;
    let length = unmark_into(pack, &mut out)?;
    out.truncate(length);
    Ok(out)
}

/// Writes the pack with marks to the start of the output and answers its length.
///
/// The output is untouched after a refusal, and behind the new pack.
pub fn mark_into(pack: &[u8], out: &mut [u8]) -> Result<usize, PackRefused> {
    PackRefused::number(raw::marks::mark(pack, out))
}

/// Writes the marked pack without its marks, as `mark_into` does.
pub fn unmark_into(pack: &[u8], out: &mut [u8]) -> Result<usize, PackRefused> {
    PackRefused::number(raw::marks::unmark(pack, out))
}
