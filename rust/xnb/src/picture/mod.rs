//! Textures as pictures.

mod blocks;
mod format;
mod pixels;

pub use format::SurfaceFormat;
pub(crate) use pixels::half;

use crate::fields::Fields;
use crate::kind::Kind;
use crate::memory::OutOfMemory;
use crate::numbers::numbers;
use crate::refusal::Refused;
use crate::shape::Shaped;
use crate::table::Grid;

/// What a texture says of itself.
#[derive(Clone, Copy, Debug, PartialEq, Eq, Hash)]
#[cfg_attr(feature = "serde", derive(serde::Serialize))]
pub struct Texture {
    /// How its pixels are stored.
    pub format: SurfaceFormat,
    /// The width of its first level in pixels.
    pub width: u32,
    /// The height of its first level in pixels.
    pub height: u32,
    /// The number of its levels.
    pub levels: usize,
}

/// A texture with its levels.
///
/// ```
/// let mut file = b"XNBw\x05\x00\x6E\x00\x00\x00\x01\x2F".to_vec();
/// file.extend_from_slice(b"Microsoft.Xna.Framework.Content.Texture2DReader\x00\x00\x00\x00");
/// // No shared object; a texture of format Bgr565, two pixels wide and one high, with one level of four bytes.
/// file.extend_from_slice(b"\x00\x01");
/// for number in [1, 2, 1, 1, 4_u32] {
///     file.extend_from_slice(&number.to_le_bytes());
/// }
/// // A red pixel and a white one.
/// file.extend_from_slice(&[0x00, 0xF8, 0xFF, 0xFF]);
/// file[6] = file.len() as u8;
///
/// let table = xnb::Table::load(&file)?;
/// let picture = table.picture(0)?;
/// assert_eq!(picture.texture().format, xnb::SurfaceFormat::Bgr565);
/// let level = picture.level(0).expect("a texture has a level");
/// assert_eq!((level.width, level.height), (2, 1));
/// assert_eq!(level.rgba8()?, [255, 0, 0, 255, 255, 255, 255, 255]);
/// # Ok::<(), Box<dyn std::error::Error>>(())
/// ```
#[derive(Clone, Copy, Debug)]
pub struct Picture<'t, 'f> {
    texture: Texture,
    levels: Fields<'t, 'f>,
}

/// One level of a texture: a picture of half the sides of the level before.
#[derive(Clone, Copy, Debug, PartialEq, Eq)]
#[non_exhaustive]
pub struct Level<'f> {
    /// Its row number.
    pub row: u32,
    /// How its pixels are stored.
    pub format: SurfaceFormat,
    /// Its width in pixels.
    pub width: u32,
    /// Its height in pixels.
    pub height: u32,
    /// Its pixels as they are stored.
    pub data: &'f [u8],
}

impl Texture {
    /// A texture of so many levels, in the bytes behind its type id.
    pub(crate) fn of(bytes: &[u8], levels: usize) -> Texture {
        let [format, width, height] = numbers(&bytes[..12]);
        Texture {
            format: SurfaceFormat::of_code(format).expect("a load takes listed formats only"),
            width,
            height,
            levels,
        }
    }
}

impl<'f, S: Shaped, W: AsRef<[u32]>> Grid<'f, S, W> {
    /// The picture of a texture's row.
    pub fn picture(&self, number: u32) -> Result<Picture<'_, 'f>, Refused> {
        let levels = self.fields(number, Kind::Texture2D)?;
        let row = levels.view.row(number);
        Ok(Picture {
            texture: Texture::of(levels.view.value_bytes(&row), row.children),
            levels,
        })
    }
}

impl<'t, 'f> Picture<'t, 'f> {
    /// What the texture says of itself.
    pub fn texture(&self) -> Texture {
        self.texture
    }

    /// The level of this number; 0 is the largest.
    pub fn level(&self, number: usize) -> Option<Level<'f>> {
        self.levels().nth(number)
    }

    /// The levels, from the largest on.
    pub fn levels(&self) -> impl ExactSizeIterator<Item = Level<'f>> + use<'t, 'f> {
        let (texture, mut fields) = (self.texture, self.levels);
        (0..texture.levels).map(move |level| {
            let row = fields.take();
            let side = |side: u32| (side >> level).max(1);
            Level {
                row: row.number,
                format: texture.format,
                width: side(texture.width),
                height: side(texture.height),
                data: fields.view.value_bytes(&row),
            }
        })
    }
}

impl Level<'_> {
    /// The pixels as red, green, blue and alpha of a byte each, line by line from the upper left one on.
    ///
    /// [`SurfaceFormat::made`] says what is done to a format that has not just these.
    ///
    /// They take four bytes each, whatever the file spends on them: 64 MB for the largest level that a file can hold.
    pub fn rgba8(&self) -> Result<Vec<u8>, OutOfMemory> {
        let size = (self.width as usize, self.height as usize);
        match self.format {
            SurfaceFormat::Dxt1 => blocks::pixels(self.data, size, blocks::dxt1),
            SurfaceFormat::Dxt3 => blocks::pixels(self.data, size, blocks::dxt3),
            SurfaceFormat::Dxt5 => blocks::pixels(self.data, size, blocks::dxt5),
            format => pixels::pixels(self.data, format),
        }
    }
}
