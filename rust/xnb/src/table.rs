//! A loaded file.

use crate::calls::{Loaded, Time};
use crate::kind::Kind;
use crate::loader::Loader;
use crate::refusal::{Refusal, Refused};
use crate::row::{Row, WORDS_PER_ROW};
use crate::search::places;
use crate::shape::{room, ByColumns, ByRows, Shaped};
use std::iter::successors;
use std::marker::PhantomData;

/// A file and the rows of its values, row after row.
///
/// ```
/// let mut file = b"XNBw\x05\x00\x55\x00\x00\x00\x01\x3B".to_vec();
/// file.extend_from_slice(b"Microsoft.Xna.Framework.Content.ListReader`1[[System.Byte]]\x00\x00\x00\x00");
/// // One shared object; the primary object, a list of three bytes; the shared object, a null.
/// file.extend_from_slice(b"\x01\x01\x03\x00\x00\x00\x07\x08\x09\x00");
///
/// let table = xnb::Table::load(&file)?;
/// assert!(table.objects().eq([0, 4]));
/// assert!(table.children(0).eq([1, 2, 3]));
/// let list = table.row(0).expect("the primary object");
/// assert_eq!((list.children, list.rows), (3, 4));
/// // Behind the list and all below it is the shared object; behind that there is no row.
/// assert_eq!(table.next(0), Some(4));
/// assert_eq!(table.next(4), Some(5));
/// assert_eq!(table.row(5), None);
/// # Ok::<(), xnb::Refused>(())
/// ```
pub type Table<'f, W = Vec<u32>> = Grid<'f, ByRows, W>;

/// A file and the rows of its values in columns, for searches in one word of all rows.
///
/// A column has a word for each row in use: the word of row 3 is the column's `[3]`, whatever room the words have.
///
/// ```
/// let mut file = b"XNBw\x05\x00\x55\x00\x00\x00\x01\x3B".to_vec();
/// file.extend_from_slice(b"Microsoft.Xna.Framework.Content.ListReader`1[[System.Byte]]\x00\x00\x00\x00");
/// // One shared object; the primary object, a list of three bytes; the shared object, a null.
/// file.extend_from_slice(b"\x01\x01\x03\x00\x00\x00\x07\x08\x09\x00");
///
/// let columns = xnb::Columns::load(&file)?;
/// assert_eq!(columns.kinds(), [18, 1, 1, 1, 0]);
/// assert_eq!(columns.first_bytes(), [76, 81, 82, 83, 84]);
/// assert_eq!(columns.lengths(), [8, 1, 1, 1, 1]);
/// assert_eq!(columns.child_counts(), [3, 0, 0, 0, 0]);
/// assert_eq!(columns.parents(), [0, 1, 1, 1, 0]);
/// assert_eq!(columns.details(), [1, 0, 0, 0, 0]);
/// assert_eq!(columns.row_counts(), [4, 1, 1, 1, 1]);
/// assert!(columns.of_kind(xnb::Kind::Byte).eq([1, 2, 3]));
/// // All else is as in a table by rows.
/// assert!(columns.rows().eq(xnb::Table::load(&file)?.rows()));
/// assert!(columns.objects().eq([0, 4]));
/// assert_eq!(columns.part(2)?, [8]);
/// # Ok::<(), xnb::Refused>(())
/// ```
pub type Columns<'f, W = Vec<u32>> = Grid<'f, ByColumns, W>;

/// A file and the rows of its values, in words of its own or in given ones: a [`Table`] or [`Columns`].
#[derive(Clone, Debug)]
pub struct Grid<'f, S, W = Vec<u32>> {
    file: &'f [u8],
    words: W,
    loaded: Loaded,
    shape: PhantomData<S>,
}

impl<'f, S: Shaped> Grid<'f, S> {
    /// Loads a file with room for all its rows.
    pub fn load(file: &'f [u8]) -> Result<Grid<'f, S>, Refused> {
        Loader::new().load_grid(file)
    }

    /// Gives up the room behind the rows in use.
    pub(crate) fn without_room_left(mut self) -> Grid<'f, S> {
        S::SHAPE.shrink(&mut self.words, self.loaded.rows);
        self
    }
}

impl<'f> Table<'f> {
    /// Loads a file for the driver's own screen, as [`Loader::load_driver`] does.
    pub fn load_driver(file: &'f [u8]) -> Result<Table<'f>, Refused> {
        Loader::new().load_driver(file)
    }
}

impl<'f, S: Shaped, W: AsRef<[u32]> + AsMut<[u32]>> Grid<'f, S, W> {
    /// Loads a file into these words; a row takes [`WORDS_PER_ROW`].
    pub fn load_into(file: &'f [u8], words: W) -> Result<Grid<'f, S, W>, Refused> {
        Loader::new().load_into(file, words)
    }
}

impl<'f, S, W> Grid<'f, S, W> {
    /// The grid of a file in words that a load left.
    pub(crate) fn of(file: &'f [u8], words: W, loaded: Loaded) -> Grid<'f, S, W> {
        Grid {
            file,
            words,
            loaded,
            shape: PhantomData,
        }
    }
}

impl<'f, S: Shaped, W: AsRef<[u32]>> Grid<'f, S, W> {
    /// The bytes of the file.
    pub fn file(&self) -> &'f [u8] {
        self.file
    }

    /// Every word, of rows in use or not.
    pub(crate) fn all_words(&self) -> &[u32] {
        self.words.as_ref()
    }

    /// The number of rows, readers and shared objects, and the padding.
    pub fn loaded(&self) -> Loaded {
        self.loaded
    }

    /// How many bytes the file's seven-bit numbers have more than their shortest forms.
    ///
    /// It is 0 exactly if the file is already as short as [`shorten`](crate::shorten) makes it.
    ///
    /// ```
    /// let mut file = b"XNBw\x05\x00\x44\x00\x00\x00\x01\x2C".to_vec();
    /// file.extend_from_slice(b"Microsoft.Xna.Framework.Content.StringReader\x00\x00\x00\x00");
    /// // No shared object; a text of two bytes, its type id in two bytes and its count in three.
    /// file.extend_from_slice(b"\x00\x81\x00\x82\x80\x00Hi");
    ///
    /// let table = xnb::Table::load(&file)?;
    /// assert_eq!(table.padding(), 3);
    /// assert_eq!(xnb::Columns::load(&file)?.padding(), 3);
    ///
    /// let shortest = xnb::shorten(&file)?;
    /// assert_eq!(shortest.len(), file.len() - table.padding());
    /// assert_eq!(xnb::Table::load(&shortest)?.padding(), 0);
    /// # Ok::<(), xnb::FileError>(())
    /// ```
    pub fn padding(&self) -> usize {
        self.loaded.padding
    }

    /// One row, found without looking at any other.
    pub fn row(&self, number: u32) -> Option<Row> {
        ((number as usize) < self.loaded.rows).then(|| self.used_row(number))
    }

    /// One row, or 23.
    pub(crate) fn known_row(&self, number: u32) -> Result<Row, Refused> {
        self.row(number).ok_or(Refused {
            refusal: Refusal::NoSuchRow,
            place: number,
        })
    }

    /// Every row in file order: a value is before all below it.
    pub fn rows(&self) -> impl Iterator<Item = Row> + '_ {
        (0..self.loaded.rows as u32).map(|number| self.used_row(number))
    }

    fn used_row(&self, number: u32) -> Row {
        let words = S::SHAPE.row(self.words.as_ref(), number as usize);
        let row = words.and_then(|words| Row::of_words(number, words));
        row.expect("a load leaves rows of known kinds")
    }

    /// The row number behind a value and all below it; the number of rows where no row is behind them.
    pub fn next(&self, number: u32) -> Option<u32> {
        S::SHAPE.next(self.words.as_ref(), number)
    }

    /// The numbers of the rows that belong to a row, in file order; each takes one step.
    pub fn children(&self, number: u32) -> impl Iterator<Item = u32> + '_ {
        let count = self.row(number).map_or(0, |row| row.children);
        self.each_next(number.saturating_add(1)).take(count)
    }

    /// The primary object's row number, then those of the shared objects; each takes one step.
    pub fn objects(&self) -> impl Iterator<Item = u32> + '_ {
        self.each_next(0).take(1 + self.loaded.shared)
    }

    /// A row number, then each behind the one before and all below that.
    fn each_next(&self, first: u32) -> impl Iterator<Item = u32> + '_ {
        successors(Some(first), |number| self.next(*number))
    }

    /// The part of the file that a row names.
    pub fn part(&self, number: u32) -> Result<&'f [u8], Refused> {
        S::SHAPE.part(self.file, self.words.as_ref(), number)
    }

    /// The text of a String.
    pub fn text(&self, number: u32) -> Result<&'f str, Refused> {
        let bytes = S::SHAPE.text(self.file, self.words.as_ref(), number)?;
        Ok(std::str::from_utf8(bytes).expect("a load takes only UTF-8"))
    }

    /// The number of an SByte, Int16, Int32, Int64 or TimeSpan.
    pub fn signed(&self, number: u32) -> Result<i64, Refused> {
        S::SHAPE.signed(self.file, self.words.as_ref(), number)
    }

    /// The time of a TimeSpan.
    pub fn time(&self, number: u32) -> Result<Time, Refused> {
        S::SHAPE.time(self.file, self.words.as_ref(), number)
    }
}

impl<W: AsRef<[u32]>> Table<'_, W> {
    /// The words of the rows in use.
    pub fn words(&self) -> &[u32] {
        &self.words.as_ref()[..WORDS_PER_ROW * self.loaded.rows]
    }
}

impl<W: AsRef<[u32]>> Columns<'_, W> {
    /// The number of each row's kind, as [`Kind::number`] gives it.
    pub fn kinds(&self) -> &[u32] {
        self.column(0)
    }

    /// The place of each row's first byte in the file.
    pub fn first_bytes(&self) -> &[u32] {
        self.column(1)
    }

    /// Each row's number of bytes.
    pub fn lengths(&self) -> &[u32] {
        self.column(2)
    }

    /// Each row's number of children.
    pub fn child_counts(&self) -> &[u32] {
        self.column(3)
    }

    /// The row number of each row's parent plus 1, or 0.
    pub fn parents(&self) -> &[u32] {
        self.column(4)
    }

    /// The type id of each object, the resource id of each reference, else 0.
    pub fn details(&self) -> &[u32] {
        self.column(5)
    }

    /// Each row's number of rows with all below it, itself included.
    pub fn row_counts(&self) -> &[u32] {
        self.column(6)
    }

    /// The numbers of the rows of a kind, found in the column of kinds alone.
    pub fn of_kind(&self, kind: Kind) -> impl Iterator<Item = u32> + '_ {
        places(self.kinds(), kind.number())
    }

    fn column(&self, column: usize) -> &[u32] {
        let words = self.words.as_ref();
        &words[room(words) * column..][..self.loaded.rows]
    }
}
