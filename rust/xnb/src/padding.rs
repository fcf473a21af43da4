//! Which values pad.

use crate::kind::Kind;
use crate::numbers::{seven_length, shortest_length};
use crate::refusal::Refused;
use crate::row::Detail;
use crate::shape::Shaped;
use crate::table::Grid;

impl<S: Shaped, W: AsRef<[u32]>> Grid<'_, S, W> {
    /// How many bytes a row's own seven-bit numbers have more than their shortest forms: its type id, the count of a
    /// text, the resource id of a reference. Those of values below it count there; 23 refuses a row that is not there.
    ///
    /// ```
    /// let mut file = b"XNBw\x05\x00\x44\x00\x00\x00\x01\x2C".to_vec();
    /// file.extend_from_slice(b"Microsoft.Xna.Framework.Content.StringReader\x00\x00\x00\x00");
    /// // No shared object; a text of two bytes, its type id in two bytes and its count in three.
    /// file.extend_from_slice(b"\x00\x81\x00\x82\x80\x00Hi");
    ///
    /// let table = xnb::Table::load(&file)?;
    /// assert_eq!(table.row_padding(0)?, 3);
    /// # Ok::<(), xnb::Refused>(())
    /// ```
    pub fn row_padding(&self, number: u32) -> Result<usize, Refused> {
        let row = self.known_row(number)?;
        let part = &self.file()[row.first..][..row.length];
        let (id, raw) = match row.detail {
            Detail::TypeId(id) => {
                let length = seven_length(part);
                (length - shortest_length(id as usize), &part[length..])
            }
            _ => (0, part),
        };
        Ok(match row.kind {
            Kind::String => {
                let length = seven_length(raw);
                id + length - shortest_length(raw.len() - length)
            }
            Kind::SharedReference => match row.detail {
                Detail::ResourceId(id) => raw.len() - shortest_length(id as usize),
                _ => raw.len() - 1,
            },
            // A null is its type id, 0, and nothing else.
            Kind::Null => raw.len() - 1,
            _ => id,
        })
    }
}
