//! The entries with refusals as errors.

use crate::loader::Loader;
use crate::raw;
use crate::refusal::{FileError, Refused};
use crate::shape::Shape;

/// What an accepted file holds.
#[derive(Clone, Copy, Debug, PartialEq, Eq)]
#[cfg_attr(feature = "serde", derive(serde::Serialize))]
#[non_exhaustive]
pub struct Loaded {
    /// The number of its values.
    pub rows: usize,
    /// The number of its readers.
    pub readers: usize,
    /// The number of its shared objects.
    pub shared: usize,
    /// How many bytes its seven-bit numbers have more than their shortest forms.
    pub padding: usize,
}

/// Whole seconds, rounded down, and the ticks above them, 10,000,000 to a second.
#[derive(Clone, Copy, Debug, PartialEq, Eq)]
#[cfg_attr(feature = "serde", derive(serde::Serialize))]
pub struct Time {
    /// The whole seconds, rounded down.
    pub seconds: i64,
    /// The ticks above them, 0 to 9,999,999.
    pub ticks: u32,
}

/// The number of rows of a file that has at most 1,024.
pub fn count_rows(file: &[u8]) -> Result<usize, Refused> {
    unpacked(raw::load(file))
}

/// Writes the shortest form of a file to the start of the output and answers its length.
///
/// The words are left as by a load of the file; the output is untouched after a refusal.
pub fn rewrite(file: &[u8], words: &mut [u32], out: &mut [u8]) -> Result<usize, Refused> {
    Loader::new().rewrite(file, words, out)
}

/// The shortest form of a file: it is shorter by the file's [`padding`](crate::Grid::padding).
pub fn shorten(file: &[u8]) -> Result<Vec<u8>, FileError> {
    Loader::new().shorten(file)
}

impl Shape {
    /// Loads a file into given words, [`WORDS_PER_ROW`](crate::WORDS_PER_ROW) to a row; every other word is zero,
    /// and all are after a refusal.
    pub fn load(self, file: &[u8], words: &mut [u32]) -> Result<Loaded, Refused> {
        Loader::new().load_words(self, file, words)
    }

    /// The part of the file that a row names.
    #[inline]
    pub fn part<'f>(self, file: &'f [u8], words: &[u32], row: u32) -> Result<&'f [u8], Refused> {
        let (refusal, first, length) = raw::part(self, file, words, row);
        Refused::check(refusal, row)?;
        Ok(&file[first..first + length])
    }

    /// The bytes of a text.
    #[inline]
    pub fn text<'f>(self, file: &'f [u8], words: &[u32], row: u32) -> Result<&'f [u8], Refused> {
        let (refusal, first, length) = raw::text(self, file, words, row);
        Refused::check(refusal, row)?;
        Ok(&file[first..first + length])
    }

    /// A number of kind SByte, Int16, Int32, Int64 or TimeSpan.
    #[inline]
    pub fn signed(self, file: &[u8], words: &[u32], row: u32) -> Result<i64, Refused> {
        let (refusal, value) = raw::signed(self, file, words, row);
        Refused::check(refusal, row)?;
        Ok(value)
    }

    /// The time of a TimeSpan.
    #[inline]
    pub fn time(self, file: &[u8], words: &[u32], row: u32) -> Result<Time, Refused> {
        let (refusal, seconds, ticks) = raw::time(self, file, words, row);
        Refused::check(refusal, row)?;
        Ok(Time { seconds, ticks })
    }

    /// The row number behind a row and all below it: that of the next value with the same parent, if there is one.
    ///
    /// There is no answer for a row past the words' room, or whose number of rows is 0 or ends past the room.
    #[inline]
    pub fn next(self, words: &[u32], row: u32) -> Option<u32> {
        Some(raw::next(self, words, row)).filter(|next| *next > 0)
    }
}

/// An answer that holds a refusal above a place, or a number.
pub(crate) fn unpacked(answer: u64) -> Result<usize, Refused> {
    let low = answer as u32;
    Refused::check((answer >> 32) as u32, low)?;
    Ok(low as usize)
}
