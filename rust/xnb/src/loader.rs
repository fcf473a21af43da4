//! Loads and rewrites with a list of enum types.

use crate::calls::{unpacked, Loaded};
use crate::enums::EnumList;
use crate::explain::{explain_with, Explanation};
use crate::memory::zeros;
use crate::raw;
use crate::refusal::{FileError, Refused};
use crate::row::{full_room, LONGEST_FILE};
use crate::shape::{Shape, Shaped};
use crate::table::{Columns, Grid, Table};

/// How files are loaded and rewritten: with which list of enum types.
///
/// The plain functions, such as [`Table::load`](crate::Table) and [`shorten`](crate::shorten), are those of
/// `Loader::new()`, which has an empty list.
///
/// ```
/// use xnb::{EnumList, Kind, Loader, Table};
///
/// let mut file = b"XNBw\x05\x00\x52\x00\x00\x00\x01\x3A".to_vec();
/// file.extend_from_slice(b"Microsoft.Xna.Framework.Content.ListReader`1[[Coach.Door]]\x00\x00\x00\x00");
/// // No shared object; the primary object, a list of two doors of one byte each.
/// file.extend_from_slice(b"\x00\x01\x02\x00\x00\x00\x07\x08");
/// // An enum that is not listed is no argument of a reader.
/// let refused = Table::load(&file).unwrap_err();
/// assert_eq!(refused.refusal, xnb::Refusal::NameHead);
///
/// let enums = EnumList::new([("Coach.Door", 1)])?;
/// let loader = Loader::new().with_enums(&enums);
/// let table = loader.load(&file)?;
/// let doors: Vec<&[u8]> = table.children(0).map(|row| table.part(row)).collect::<Result<_, _>>()?;
/// assert_eq!(doors, [[7], [8]]);
/// assert_eq!(table.row(1).map(|row| row.kind), Some(Kind::Enum));
/// assert_eq!(loader.load_columns(&file)?.kinds(), [18, 15, 15]);
/// assert_eq!(loader.shorten(&file)?, file);
/// # Ok::<(), Box<dyn std::error::Error>>(())
/// ```
#[derive(Clone, Copy, Debug, Default)]
pub struct Loader<'e> {
    enums: &'e [u8],
}

impl<'e> Loader<'e> {
    /// A loader with an empty list of enum types.
    pub fn new() -> Loader<'static> {
        Loader { enums: &[] }
    }

    /// The same loader with this list.
    pub fn with_enums(self, enums: &'e EnumList) -> Loader<'e> {
        self.with_enum_bytes(enums.as_bytes())
    }

    /// The same loader with a list of any bytes; where they are no list, every file is refused with
    /// [`EnumEntry`](crate::Refusal::EnumEntry).
    pub fn with_enum_bytes(self, enums: &'e [u8]) -> Loader<'e> {
        Loader { enums }
    }

    /// The bytes of the list.
    pub(crate) fn enum_bytes(self) -> &'e [u8] {
        self.enums
    }

    /// Loads a file by rows, with room for all its rows.
    pub fn load<'f>(self, file: &'f [u8]) -> Result<Table<'f>, Refused> {
        self.load_grid(file)
    }

    /// Loads a file into columns, with room for all its rows.
    pub fn load_columns<'f>(self, file: &'f [u8]) -> Result<Columns<'f>, Refused> {
        self.load_grid(file)
    }

    /// Loads a file in the shape of the type that is asked for, with room for all its rows.
    pub(crate) fn load_grid<'f, S: Shaped>(self, file: &'f [u8]) -> Result<Grid<'f, S>, Refused> {
        let grid = self.load_into(file, vec![0; full_room(file)])?;
        Ok(grid.without_room_left())
    }

    /// Loads a file into these words, in the shape of the type that is asked for.
    ///
    /// ```
    /// # let file = b"XNBw\x05\x00\x0D\x00\x00\x00\x00\x00\x00";
    /// let mut words = [0; xnb::WORDS_PER_ROW];
    /// let table: xnb::Table<_> = xnb::Loader::new().load_into(file, &mut words)?;
    /// assert_eq!(table.loaded().rows, 1);
    /// # Ok::<(), xnb::Refused>(())
    /// ```
    pub fn load_into<'f, S, W>(
        self,
        file: &'f [u8],
        mut words: W,
    ) -> Result<Grid<'f, S, W>, Refused>
    where
        S: Shaped,
        W: AsRef<[u32]> + AsMut<[u32]>,
    {
        let loaded = self.load_words(S::SHAPE, file, words.as_mut())?;
        Ok(Grid::of(file, words, loaded))
    }

    /// Loads a file into given words as [`Shape::load`] does.
    pub fn load_words(
        self,
        shape: Shape,
        file: &[u8],
        words: &mut [u32],
    ) -> Result<Loaded, Refused> {
        loaded(raw::load_table(shape, file, self.enums, words))
    }

    /// Loads a file for the driver's own screen, with room for all its rows.
    ///
    /// What [`load`](Loader::load) refuses is refused alike; then each rule of the driver's profile is judged, and the
    /// first that is broken decides: platform `w`, every seven-bit number in its shortest form, every reader used, no
    /// two readers of one target, no two String keys of equal bytes in a dictionary, a Page first, and a next page to
    /// each page.
    ///
    /// ```
    /// use xnb::{Loader, Refusal, Table};
    ///
    /// // A page of no title that leads to itself, as the primary object and as the shared one.
    /// let mut file = b"XNBw\x05\x00\x59\x00\x00\x00\x01\x18Coach.Console.PageReader\x00\x00\x00\x00\x01".to_vec();
    /// for _ in 0..2 {
    ///     file.extend_from_slice(b"\x01\x00\x00\x00\x00\x00\x00\x00\x00\x00\x00\x00\x00\x00\x00\x00\x00\x00\x00\x01");
    /// }
    /// file[6] = file.len() as u8;
    /// let table = Loader::new().load_driver(&file)?;
    /// assert_eq!(table.words(), Table::load(&file)?.words());
    ///
    /// // No next page: the plain loader takes it.
    /// let last = file.len() - 1;
    /// file[last] = 0;
    /// assert!(Table::load(&file).is_ok());
    /// let refused = Loader::new().load_driver(&file).unwrap_err();
    /// assert_eq!((refused.refusal, refused.place as usize), (Refusal::NoNextPage, last));
    /// let explained = xnb::explain(&file, refused, 1024).unwrap();
    /// assert_eq!(explained.found, "the page without a title of row 5 has no next page");
    /// # Ok::<(), xnb::Refused>(())
    /// ```
    pub fn load_driver<'f>(self, file: &'f [u8]) -> Result<Table<'f>, Refused> {
        let table = self.load_driver_into(file, vec![0; full_room(file)])?;
        Ok(table.without_room_left())
    }

    /// Loads a file for the driver's own screen into these words, by rows.
    pub fn load_driver_into<'f, W>(
        self,
        file: &'f [u8],
        mut words: W,
    ) -> Result<Table<'f, W>, Refused>
    where
        W: AsRef<[u32]> + AsMut<[u32]>,
    {
        let loaded = loaded(raw::load_driver(file, self.enums, words.as_mut()))?;
        Ok(Grid::of(file, words, loaded))
    }

    /// Writes the shortest form of a file to the start of the output, as [`rewrite`](crate::rewrite) does.
    pub fn rewrite(self, file: &[u8], words: &mut [u32], out: &mut [u8]) -> Result<usize, Refused> {
        unpacked(raw::rewrite(file, self.enums, words, out))
    }

    /// The shortest form of a file.
    pub fn shorten(self, file: &[u8]) -> Result<Vec<u8>, FileError> {
        // It is never longer than the file, and a longer file than the longest is refused.
        let mut out = zeros(file.len().min(LONGEST_FILE))?;
        let mut words = zeros(full_room(file))?;
        let length = self.rewrite(file, &mut words, &mut out)?;
        out.truncate(length);
        Ok(out)
    }

    /// What is at the place of a refusal by this loader, as [`explain`](crate::explain) gives it.
    pub fn explain(self, file: &[u8], refused: Refused, room: usize) -> Option<Explanation<'_>> {
        explain_with(self.enums, file, refused, room)
    }
}

/// What an entry that loads answers.
fn loaded(answer: raw::LoadAnswer) -> Result<Loaded, Refused> {
    Ok(Loaded {
        rows: unpacked(answer.packed)?,
        readers: answer.readers as usize,
        shared: answer.shared as usize,
        padding: answer.padding as usize,
    })
}
