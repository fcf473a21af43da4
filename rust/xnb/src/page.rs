//! Pages of the console.

use crate::fields::Fields;
use crate::kind::Kind;
use crate::refusal::Refused;
use crate::shape::Shaped;
use crate::table::Grid;
use crate::value::Rectangle;

/// A page of the console.
///
/// ```
/// let mut file = b"XNBw\x05\x00....\x02".to_vec();
/// for name in ["Coach.Console.PageReader", "Microsoft.Xna.Framework.Content.StringReader"] {
///     file.push(name.len() as u8);
///     file.extend_from_slice(name.as_bytes());
///     file.extend_from_slice(&[0; 4]);
/// }
/// // One shared object; a page with a title, an area, no texture and the shared object as next.
/// file.extend_from_slice(b"\x01\x01\x02\x05Doors");
/// for number in [0, 0, 320, 240_u32] {
///     file.extend_from_slice(&number.to_le_bytes());
/// }
/// file.extend_from_slice(b"\x00\x01");
/// // The shared object: a page without a title, which is its own next.
/// file.extend_from_slice(b"\x01\x00");
/// file.extend_from_slice(&[0; 16]);
/// file.extend_from_slice(b"\x00\x01");
/// let length = file.len() as u32;
/// file[6..10].copy_from_slice(&length.to_le_bytes());
///
/// let table = xnb::Table::load(&file)?;
/// let page = table.page(0)?;
/// assert_eq!(page.title, Some("Doors"));
/// assert_eq!((page.area.width, page.area.height), (320, 240));
/// assert_eq!((page.texture, page.next), (None, table.resource(1)));
/// let next = table.page(page.next.expect("a page follows"))?;
/// assert_eq!((next.title, next.next), (None, page.next));
/// # Ok::<(), xnb::Refused>(())
/// ```
#[derive(Clone, Copy, Debug, PartialEq, Eq)]
#[cfg_attr(feature = "serde", derive(serde::Serialize))]
#[non_exhaustive]
pub struct Page<'f> {
    /// Its title, unless it is null.
    pub title: Option<&'f str>,
    /// Where it is on the screen.
    pub area: Rectangle,
    /// The resource id of its texture, unless the reference is null.
    pub texture_id: Option<u32>,
    /// The row number of its texture, unless the reference is null or names a null.
    pub texture: Option<u32>,
    /// The resource id of the page that follows, unless the reference is null.
    pub next_id: Option<u32>,
    /// The row number of the page that follows, unless the reference is null or names a null. Rings are lawful.
    pub next: Option<u32>,
}

impl<'f, S: Shaped, W: AsRef<[u32]>> Grid<'f, S, W> {
    /// The page of a row.
    pub fn page(&self, number: u32) -> Result<Page<'f>, Refused> {
        self.fields(number, Kind::Page).map(Page::take)
    }
}

impl<'f> Page<'f> {
    fn take(mut fields: Fields<'_, 'f>) -> Page<'f> {
        let (title, area) = (fields.text(), Rectangle::of(fields.bytes()));
        let (texture_id, next_id) = (fields.resource_id(), fields.resource_id());
        Page {
            title,
            area,
            texture_id,
            texture: fields.view.present_resource(texture_id),
            next_id,
            next: fields.view.present_resource(next_id),
        }
    }
}
