//! Rows of the table.

use crate::kind::Kind;

/// No longer file is taken.
pub(crate) const LONGEST_FILE: usize = 16_777_216;

/// The words of a row in a table; words have room for as many rows as they hold whole ones.
pub const WORDS_PER_ROW: usize = 7;
/// A table has never room for more rows.
pub const MOST_ROWS: usize = 65_536;

/// One value of the file.
#[derive(Clone, Copy, Debug, PartialEq, Eq)]
#[cfg_attr(feature = "serde", derive(serde::Serialize))]
#[non_exhaustive]
pub struct Row {
    /// Its number in the table, counted from 0.
    pub number: u32,
    /// What it is.
    pub kind: Kind,
    /// The place of its first byte in the file.
    pub first: usize,
    /// Its number of bytes.
    pub length: usize,
    /// Its number of children.
    pub children: usize,
    /// The row number of the value that it belongs to.
    pub parent: Option<u32>,
    /// What it points to.
    pub detail: Detail,
    /// Its number of rows with all below it, itself included.
    pub rows: usize,
}

/// What an object or a reference points to.
#[derive(Clone, Copy, Debug, PartialEq, Eq)]
#[cfg_attr(feature = "serde", derive(serde::Serialize))]
#[non_exhaustive]
pub enum Detail {
    /// It is neither an object nor a reference, or it is null.
    Nothing,
    /// The reader of an object, counted from 1.
    TypeId(u32),
    /// The shared object of a reference, counted from 1.
    ResourceId(u32),
}

impl Row {
    /// The row of this number in these words, or nothing if their kind is unknown.
    #[inline]
    pub fn of_words(number: u32, words: [u32; WORDS_PER_ROW]) -> Option<Row> {
        let [kind, first, length, children, parent, detail, rows] = words;
        let kind = Kind::of_number(kind)?;
        let detail = match (kind, detail) {
            (_, 0) => Detail::Nothing,
            (Kind::SharedReference, id) => Detail::ResourceId(id),
            (_, id) => Detail::TypeId(id),
        };
        Some(Row {
            number,
            kind,
            first: first as usize,
            length: length as usize,
            children: children as usize,
            parent: parent.checked_sub(1),
            detail,
            rows: rows as usize,
        })
    }
}

/// How many words have room for every row of a file: each value has a byte of its own, and 1.8 MB are enough for all.
pub(crate) fn full_room(file: &[u8]) -> usize {
    WORDS_PER_ROW * file.len().min(MOST_ROWS)
}
