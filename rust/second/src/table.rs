//! The table that a load fills: its rows in lent words, in one of two shapes.

use crate::row::{Row, WORDS_PER_ROW};

pub const MOST_ROWS: usize = 65_536;

/// How the words of a table stand.
#[derive(Clone, Copy, Debug, PartialEq, Eq)]
pub enum Shape {
    /// Row after row, as in 01.
    Rows,
    /// "All kinds first, then all first bytes, and so on, each column as long as the room", as in Req 08.
    Columns,
}

impl Shape {
    pub const BOTH: [Shape; 2] = [Shape::Rows, Shape::Columns];

    /// Where a word of a row stands in words with so much room.
    pub fn place(self, room: usize, row: usize, word: usize) -> usize {
        match self {
            Shape::Rows => WORDS_PER_ROW * row + word,
            Shape::Columns => room * word + row,
        }
    }
}

/// Words of any content, and the shape in which they are read.
#[derive(Clone, Copy, Debug)]
pub struct Table<'w> {
    shape: Shape,
    words: &'w [u32],
}

impl<'w> Table<'w> {
    pub fn new(shape: Shape, words: &'w [u32]) -> Table<'w> {
        Table { shape, words }
    }

    pub fn room(&self) -> usize {
        room(self.words)
    }

    /// A row of the table, unless the room ends before it.
    pub fn row(&self, number: usize) -> Option<Row> {
        let room = self.room();
        let word = |word| self.words[self.shape.place(room, number, word)];
        (number < room).then(|| Row::of_words(std::array::from_fn(word)))
    }
}

/// How many rows the lent words have room for, in either shape.
pub fn room(words: &[u32]) -> usize {
    (words.len() / WORDS_PER_ROW).min(MOST_ROWS)
}

/// Writes the rows, and zero to every other word.
pub fn fill(shape: Shape, words: &mut [u32], rows: &[Row]) {
    let room = room(words);
    words.fill(0);
    for (number, row) in rows.iter().enumerate() {
        for (column, word) in row.words().into_iter().enumerate() {
            words[shape.place(room, number, column)] = word;
        }
    }
}
