//! Refusals explained over the bytes of their file.
//!
//! The proved library has judged; this follows the layout from field to field to the place that it
//! named, and says what is there. It finds no faults of its own: where the field at the place
//! does not show the fault that was named, there is no explanation.

mod cursor;
mod driver;
mod header;
mod meshes;
mod names;
mod readers;
mod shown;
mod types;
mod values;
mod walk;

use crate::enums::EnumsRefused;
use crate::refusal::{Place, Refused};
use crate::row::MOST_ROWS;
use cursor::{Cursor, Stop};
pub(crate) use names::is_head_byte;
pub use shown::{NameLine, ShownName};
use std::fmt::{self, Display, Formatter};
use std::ops::Range;
pub(crate) use types::{is_target_name, reader_target};

/// What a refusal found.
#[derive(Clone, Debug, PartialEq, Eq)]
#[non_exhaustive]
pub struct Explanation<'f> {
    /// The value found and the limit that it breaks, in words.
    pub found: String,
    /// The reader that is meant.
    pub reader: Option<ReaderName<'f>>,
    /// The bytes of the reader's name that are wrong, counted from its first: the byte at the place, or the head at the
    /// place for [`NameHead`](crate::Refusal::NameHead); none at the end of a name that ends too soon.
    pub mark: Option<Range<usize>>,
}

impl<'f> Explanation<'f> {
    /// The name of the reader that is meant, with a mark below what is wrong in it.
    pub fn name(&self) -> Option<ShownName<'f>> {
        let reader = self.reader?;
        Some(ShownName::new(reader.bytes, self.mark.clone()))
    }
}

/// What is found, above the name of the reader that is meant; a marked name comes before what is found in it.
impl Display for Explanation<'_> {
    fn fmt(&self, out: &mut Formatter) -> fmt::Result {
        let found = &self.found;
        match self.name() {
            None => write!(out, "{found}"),
            Some(name) if self.mark.is_some() => write!(out, "{name}\n{found}"),
            Some(name) => write!(out, "{found}\n{name}"),
        }
    }
}

/// A name of the reader list.
#[derive(Clone, Copy, Debug, PartialEq, Eq)]
pub struct ReaderName<'f> {
    /// Its number, counted from 1 as type ids count.
    pub number: usize,
    /// The place of its first byte in the file.
    pub first: usize,
    /// Its bytes as they are in the file, lawful or not.
    pub bytes: &'f [u8],
}

/// What is at the place of a refusal by a load with room for so many rows.
///
/// ```
/// // A header that claims 14 bytes, in a file of 13.
/// let file = b"XNBw\x05\x00\x0E\x00\x00\x00\x00\x00\x00";
/// let refused = xnb::count_rows(file).unwrap_err();
/// let explanation = xnb::explain(file, refused, 1024).unwrap();
/// assert_eq!(explanation.found, "the header says 14 bytes, the file has 13");
///
/// // A reader whose name has a hyphen in it.
/// let mut file = b"XNBw\x05\x00\x4E\x00\x00\x00\x01\x3C".to_vec();
/// file.extend_from_slice(b"Microsoft.Xna.Framework.Content.List-Reader`1[[System.Char]]\x00\x00\x00\x00\x00\x00");
/// let refused = xnb::count_rows(&file).unwrap_err();
/// assert_eq!(refused.to_string(), "a reader's name: bad byte in a head, at byte 48");
/// let explanation = xnb::explain(&file, refused, 1024).unwrap();
/// assert_eq!(explanation.mark, Some(36..37));
/// assert_eq!(explanation.to_string(), "\
/// Microsoft.Xna.Framework.Content.List-Reader`1[[System.Char]]
///                                     ^
/// reader 1: a head has letters, digits, '.', '_' and '+', found '-' (2D)");
/// ```
pub fn explain(file: &[u8], refused: Refused, room: usize) -> Option<Explanation<'_>> {
    explain_with(&[], file, refused, room)
}

/// The same for a load with a list of enum types.
pub(crate) fn explain_with<'f>(
    enums: &[u8],
    file: &'f [u8],
    refused: Refused,
    room: usize,
) -> Option<Explanation<'f>> {
    match refused.refusal.place() {
        Place::Byte if refused.refusal.is_of_profile() => driver::explain(enums, file, refused),
        Place::EnumEntry => explain_entry(enums, refused.place as usize),
        Place::Byte => match walk::follow(Cursor::new(file, refused), enums, room.min(MOST_ROWS)) {
            Err(Stop::Found(explanation)) => Some(explanation),
            Err(Stop::Lost) | Ok(()) => None,
        },
        _ => None,
    }
}

/// What is wrong with an entry of the list.
fn explain_entry(enums: &[u8], entry: usize) -> Option<Explanation<'static>> {
    let refused = EnumsRefused::of(enums, entry);
    refused.fault?;
    Some(Explanation {
        found: refused.to_string(),
        reader: None,
        mark: None,
    })
}
