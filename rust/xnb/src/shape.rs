//! How the words of a table are ordered.

use crate::row::{MOST_ROWS, WORDS_PER_ROW};

/// How the words of a table are ordered; its methods load into given words and look up in words of any content.
///
/// ```
/// use xnb::{Shape, WORDS_PER_ROW};
///
/// let file = b"XNBw\x05\x00\x0D\x00\x00\x00\x00\x00\x00";
/// let mut words = [0; 2 * WORDS_PER_ROW];
/// Shape::Rows.load(file, &mut words)?;
/// assert_eq!(words, [0, 12, 1, 0, 0, 0, 1, 0, 0, 0, 0, 0, 0, 0]);
/// Shape::Columns.load(file, &mut words)?;
/// assert_eq!(words, [0, 0, 12, 0, 1, 0, 0, 0, 0, 0, 0, 0, 1, 0]);
/// assert_eq!(Shape::Columns.part(file, &words, 0)?, [0]);
/// # Ok::<(), xnb::Refused>(())
/// ```
#[derive(Clone, Copy, Debug, PartialEq, Eq)]
pub enum Shape {
    /// Row after row.
    Rows,
    /// All kinds first, then all first bytes, and so on, each column as long as the room.
    Columns,
}

// Functions over a shape are inlined, so that nothing asks for the shape where it is known.
impl Shape {
    /// The words of a row, unless the room ends before it.
    #[inline]
    pub(crate) fn row(self, words: &[u32], number: usize) -> Option<[u32; WORDS_PER_ROW]> {
        let room = room(words);
        if number >= room {
            return None;
        }
        Some(match self {
            Shape::Rows => words.as_chunks().0[number],
            Shape::Columns => std::array::from_fn(|word| words[room * word + number]),
        })
    }

    /// Gives up the room behind the rows in use.
    pub(crate) fn shrink(self, words: &mut Vec<u32>, rows: usize) {
        if self == Shape::Columns {
            let room = room(words);
            for column in 0..WORDS_PER_ROW {
                let start = room * column;
                words.copy_within(start..start + rows, rows * column);
            }
        }
        words.truncate(WORDS_PER_ROW * rows);
        words.shrink_to_fit();
    }
}

/// The number of rows that words have room for, in either shape.
#[inline]
pub(crate) fn room(words: &[u32]) -> usize {
    (words.len() / WORDS_PER_ROW).min(MOST_ROWS)
}

/// A shape as a type: [`ByRows`] or [`ByColumns`].
pub trait Shaped: sealed::Sealed {
    /// The shape that this type means.
    const SHAPE: Shape;
}

/// [`Shape::Rows`] as a type.
#[derive(Clone, Copy, Debug)]
pub enum ByRows {}

/// [`Shape::Columns`] as a type.
#[derive(Clone, Copy, Debug)]
pub enum ByColumns {}

impl Shaped for ByRows {
    const SHAPE: Shape = Shape::Rows;
}

impl Shaped for ByColumns {
    const SHAPE: Shape = Shape::Columns;
}

mod sealed {
    pub trait Sealed {}
    impl Sealed for super::ByRows {}
    impl Sealed for super::ByColumns {}
}
