//! The header of a file and its readers.

use crate::explain::reader_target;
use crate::kind::Kind;
use crate::numbers::seven;
use crate::shape::Shaped;
use crate::table::Grid;
use std::borrow::Cow;
use std::fmt::{self, Display, Formatter};

/// What the header of a file says of its use.
///
/// ```
/// use xnb::{Platform, Profile};
///
/// let table = xnb::Table::load(b"XNBx\x05\x01\x0D\x00\x00\x00\x00\x00\x00")?;
/// assert_eq!(table.header().platform, Platform::Xbox360);
/// assert_eq!(table.header().profile, Profile::HiDef);
/// # Ok::<(), xnb::Refused>(())
/// ```
#[derive(Clone, Copy, Debug, PartialEq, Eq, Hash)]
#[cfg_attr(feature = "serde", derive(serde::Serialize))]
#[non_exhaustive]
pub struct Header {
    /// The platform that it is for.
    pub platform: Platform,
    /// The profile that it is for.
    pub profile: Profile,
}

/// The platform that a file is for.
#[derive(Clone, Copy, Debug, PartialEq, Eq, Hash)]
#[cfg_attr(feature = "serde", derive(serde::Serialize))]
#[non_exhaustive]
pub enum Platform {
    /// Microsoft Windows, letter `w`.
    Windows,
    /// Windows Phone 7, letter `m`.
    WindowsPhone,
    /// Xbox 360, letter `x`.
    Xbox360,
}

/// The profile that a file is for.
#[derive(Clone, Copy, Debug, PartialEq, Eq, Hash)]
#[cfg_attr(feature = "serde", derive(serde::Serialize))]
#[non_exhaustive]
pub enum Profile {
    /// Flag 00.
    Reach,
    /// Flag 01.
    HiDef,
}

impl Platform {
    /// The letter in the header.
    pub fn letter(self) -> char {
        match self {
            Platform::Windows => 'w',
            Platform::WindowsPhone => 'm',
            Platform::Xbox360 => 'x',
        }
    }
}

/// A reader of a file, which a type id names.
///
/// ```
/// let mut file = b"XNBw\x05\x00\x55\x00\x00\x00\x01\x3B".to_vec();
/// file.extend_from_slice(b"Microsoft.Xna.Framework.Content.ListReader`1[[System.Byte]]\x00\x00\x00\x00");
/// file.extend_from_slice(b"\x01\x01\x03\x00\x00\x00\x07\x08\x09\x00");
///
/// let table = xnb::Table::load(&file)?;
/// let reader = table.reader(1).expect("the first reader");
/// assert_eq!(reader.name, "Microsoft.Xna.Framework.Content.ListReader`1[[System.Byte]]");
/// let target = reader.target();
/// assert_eq!(target.kind, Some(xnb::Kind::List));
/// assert_eq!(target.arguments[0].name, "System.Byte");
/// assert_eq!(target.to_string(), "System.Collections.Generic.List`1[[System.Byte]]");
/// assert_eq!(table.reader(2), None);
/// # Ok::<(), xnb::Refused>(())
/// ```
#[derive(Clone, Copy, Debug, PartialEq, Eq, Hash)]
#[cfg_attr(feature = "serde", derive(serde::Serialize))]
#[non_exhaustive]
pub struct Reader<'f> {
    /// Its type id, counted from 1.
    pub type_id: u32,
    /// The place of its name's first byte in the file.
    pub first: usize,
    /// Its name, with the tail that says where .NET finds it.
    pub name: &'f str,
}

/// The type that a reader reads, or an argument of it.
///
/// It is shown by its name and its arguments as .NET writes them, without tails; an array by its element's and `[]`.
#[derive(Clone, Debug, PartialEq, Eq, Hash)]
#[cfg_attr(feature = "serde", derive(serde::Serialize))]
#[non_exhaustive]
pub struct Target<'f> {
    /// The kind of its values; Object and Texture have none.
    pub kind: Option<Kind>,
    /// Its name without arguments, `System.Array` for an array.
    pub name: Cow<'f, str>,
    /// The types that it holds: the elements', or the keys' and the values'.
    pub arguments: Vec<Target<'f>>,
}

/// The place of the reader count.
pub(crate) const READER_COUNT: usize = 10;
/// The bytes of a reader's version.
const VERSION: usize = 4;

impl<'f, S: Shaped, W: AsRef<[u32]>> Grid<'f, S, W> {
    /// What the header says of the file's use.
    pub fn header(&self) -> Header {
        let file = self.file();
        Header {
            platform: match file[3] {
                b'w' => Platform::Windows,
                b'm' => Platform::WindowsPhone,
                _ => Platform::Xbox360,
            },
            profile: match file[5] {
                0 => Profile::Reach,
                _ => Profile::HiDef,
            },
        }
    }

    /// The readers in file order, by rising type id.
    pub fn readers(&self) -> impl ExactSizeIterator<Item = Reader<'f>> + use<'f, S, W> {
        let file = self.file();
        let (count, mut rest) = seven(&file[READER_COUNT..]);
        (1..count + 1).map(move |type_id| {
            let (length, behind) = seven(rest);
            let (name, behind) = behind.split_at(length as usize);
            rest = &behind[VERSION..];
            Reader {
                type_id,
                first: file.len() - behind.len() - name.len(),
                name: std::str::from_utf8(name).expect("a load takes names of ASCII"),
            }
        })
    }

    /// The reader of a type id, which counts from 1.
    pub fn reader(&self, type_id: u32) -> Option<Reader<'f>> {
        self.readers().find(|reader| reader.type_id == type_id)
    }
}

impl<'f> Reader<'f> {
    /// The type that it reads.
    pub fn target(&self) -> Target<'f> {
        reader_target(self.name).expect("a load takes names of known readers")
    }
}

impl Display for Target<'_> {
    fn fmt(&self, out: &mut Formatter) -> fmt::Result {
        match &self.arguments[..] {
            [element] if self.kind == Some(Kind::Array) => write!(out, "{element}[]"),
            [] => write!(out, "{}", self.name),
            [one] => write!(out, "{}`1[[{one}]]", self.name),
            several => {
                write!(out, "{}`{}[", self.name, several.len())?;
                for (place, argument) in several.iter().enumerate() {
                    let comma = if place > 0 { "," } else { "" };
                    write!(out, "{comma}[{argument}]")?;
                }
                write!(out, "]")
            }
        }
    }
}
