//! Values by row.

use crate::decimal::Decimal;
use crate::kind::Kind;
use crate::numbers::{numbers, seven_length, unsigned, Number};
use crate::picture::Texture;
use crate::refusal::Refused;
use crate::row::{Detail, Row};
use crate::shape::Shaped;
use crate::table::Grid;
use crate::time::{DateTime, TimeSpan};

/// A value of a file, by its kind.
///
/// A value that consists of others holds how many they are: their rows are its
/// [`children`](crate::Grid::children). A font, a page, a buffer and a model are put together by
/// [`font`](crate::Grid::font), [`page`](crate::Grid::page), [`index_buffer`](crate::Grid::index_buffer) and their like.
///
/// ```
/// use xnb::{Table, Value};
///
/// let mut file = b"XNBw\x05\x00\x5D\x00\x00\x00\x01\x41".to_vec();
/// file.extend_from_slice(b"Microsoft.Xna.Framework.Content.NullableReader`1[[System.Single]]");
/// // Version 0, no shared object; the primary object: a value is there, and it is 1.5.
/// file.extend_from_slice(b"\x00\x00\x00\x00\x00\x01\x01\x00\x00\xC0\x3F");
/// file[6] = file.len() as u8;
///
/// let table = Table::load(&file)?;
/// assert_eq!(table.value(0)?, Value::Nullable(Some(1)));
/// assert_eq!(table.value(1)?, Value::Single(1.5));
/// assert_eq!(table.value_bytes(1)?, [0, 0, 0xC0, 0x3F]);
/// # Ok::<(), xnb::Refused>(())
/// ```
#[derive(Clone, Copy, Debug, PartialEq)]
#[cfg_attr(feature = "serde", derive(serde::Serialize))]
#[non_exhaustive]
pub enum Value<'f> {
    /// An object that is missing.
    Null,
    /// A whole number of one byte without a sign.
    Byte(u8),
    /// A whole number of one byte.
    SByte(i8),
    /// A whole number of two bytes.
    Int16(i16),
    /// A whole number of two bytes without a sign.
    UInt16(u16),
    /// A whole number of four bytes.
    Int32(i32),
    /// A whole number of four bytes without a sign.
    UInt32(u32),
    /// A whole number of eight bytes.
    Int64(i64),
    /// A whole number of eight bytes without a sign.
    UInt64(u64),
    /// A floating-point number of four bytes.
    Single(f32),
    /// A floating-point number of eight bytes.
    Double(f64),
    /// True or false.
    Boolean(bool),
    /// A character below U+10000.
    Char(char),
    /// A text.
    String(&'f str),
    /// The number of an enum.
    Enum(EnumValue),
    /// The row of the value, if there is one.
    Nullable(Option<u32>),
    /// An array of so many elements.
    Array(usize),
    /// A list of so many elements.
    List(usize),
    /// A dictionary of so many pairs; its children are each key and its value in turn.
    Dictionary(usize),
    /// A length of time.
    TimeSpan(TimeSpan),
    /// A moment.
    DateTime(DateTime),
    /// A decimal number.
    Decimal(Decimal),
    /// X and Y.
    Vector2([f32; 2]),
    /// X, Y and Z.
    Vector3([f32; 3]),
    /// X, Y, Z and W.
    Vector4([f32; 4]),
    /// Sixteen numbers, row by row: M11, M12, M13, M14, M21 and so on.
    Matrix([f32; 16]),
    /// X, Y, Z and W.
    Quaternion([f32; 4]),
    /// Red, green, blue and alpha.
    Color([u8; 4]),
    /// A place.
    Point(Point),
    /// A place and a size.
    Rectangle(Rectangle),
    /// What a texture says of itself; [`picture`](crate::Grid::picture) has its pixels.
    Texture2D(Texture),
    /// A font, of which [`font`](crate::Grid::font) has more.
    SpriteFont,
    /// A page, of which [`page`](crate::Grid::page) has more.
    Page,
    /// The data of one level of a texture.
    ImageLevel(&'f [u8]),
    /// The resource id of a reference, unless it is null; [`resource`](crate::Grid::resource) has its row.
    SharedReference(Option<u32>),
    /// An index buffer, of which [`index_buffer`](crate::Grid::index_buffer) has more.
    IndexBuffer,
    /// A vertex declaration, of which [`vertex_declaration`](crate::Grid::vertex_declaration) has more.
    VertexDeclaration,
    /// A vertex buffer, of which [`vertex_buffer`](crate::Grid::vertex_buffer) has more.
    VertexBuffer,
    /// A model, of which [`model`](crate::Grid::model) has more.
    Model,
    /// The data of an index buffer or of a vertex buffer.
    DataBytes(&'f [u8]),
    /// The bone that a reference names, counted from 1, unless it is null.
    BoneReference(Option<u32>),
}

/// The number of an enum, which has 1, 2, 4 or 8 bytes.
///
/// A file does not say whether the enum's numbers have a sign.
#[derive(Clone, Copy, Debug, PartialEq, Eq, Hash)]
#[cfg_attr(feature = "serde", derive(serde::Serialize))]
pub struct EnumValue {
    bits: u64,
    size: u8,
}

impl EnumValue {
    /// The number of these bytes, at most eight.
    fn of(bytes: &[u8]) -> EnumValue {
        EnumValue {
            bits: unsigned(bytes),
            size: bytes.len() as u8,
        }
    }

    /// The number of its bytes.
    pub fn size(self) -> usize {
        usize::from(self.size)
    }

    /// The number, if the enum's numbers have no sign.
    pub fn unsigned(self) -> u64 {
        self.bits
    }

    /// The number, if the enum's numbers have a sign.
    pub fn signed(self) -> i64 {
        let unused = 64 - 8 * u32::from(self.size);
        (self.bits << unused) as i64 >> unused
    }

    /// The number as the usual enum of its size has it: Byte, Int16, Int32 or Int64.
    pub fn usual(self) -> i64 {
        match self.size {
            1 => self.bits as i64,
            _ => self.signed(),
        }
    }
}

/// A place, as XNA's `Point`.
#[derive(Clone, Copy, Debug, Default, PartialEq, Eq, Hash)]
#[cfg_attr(feature = "serde", derive(serde::Serialize))]
pub struct Point {
    /// To the right.
    pub x: i32,
    /// Down.
    pub y: i32,
}

/// A place and a size, as XNA's `Rectangle`.
#[derive(Clone, Copy, Debug, Default, PartialEq, Eq, Hash)]
#[cfg_attr(feature = "serde", derive(serde::Serialize))]
pub struct Rectangle {
    /// The left side.
    pub x: i32,
    /// The upper side.
    pub y: i32,
    /// How far it goes to the right.
    pub width: i32,
    /// How far it goes down.
    pub height: i32,
}

impl Rectangle {
    /// The rectangle in its bytes.
    pub(crate) fn of(bytes: &[u8]) -> Rectangle {
        let [x, y, width, height] = numbers(bytes);
        Rectangle {
            x,
            y,
            width,
            height,
        }
    }
}

/// The character in its bytes.
pub(crate) fn character(bytes: &[u8]) -> char {
    let text = std::str::from_utf8(bytes).ok();
    let character = text.and_then(|it| it.chars().next());
    character.expect("a load takes a whole character")
}

impl<'f, S: Shaped, W: AsRef<[u32]>> Grid<'f, S, W> {
    /// The value of a row, found without looking at any other row; 23 refuses a row that is not there.
    pub fn value(&self, number: u32) -> Result<Value<'f>, Refused> {
        let row = self.known_row(number)?;
        Ok(Value::of(&row, value_part(self.file(), &row)))
    }

    /// The part of a row without its type id and count: the bytes of a text or of elements behind their count, those of
    /// a level behind its size, none of a null.
    pub fn value_bytes(&self, number: u32) -> Result<&'f [u8], Refused> {
        let row = self.known_row(number)?;
        Ok(value_part(self.file(), &row))
    }
}

/// The bytes of a count of elements, and of the size of a level.
const COUNT_BYTES: usize = 4;

/// The part of a row without its type id and count.
pub(crate) fn value_part<'f>(file: &'f [u8], row: &Row) -> &'f [u8] {
    let part = &file[row.first..][..row.length];
    let raw = match row.detail {
        Detail::TypeId(_) => &part[seven_length(part)..],
        _ => part,
    };
    match row.kind {
        Kind::Null => &[],
        Kind::String => &raw[seven_length(raw)..],
        Kind::Array | Kind::List | Kind::Dictionary | Kind::ImageLevel => &raw[COUNT_BYTES..],
        _ => raw,
    }
}

impl<'f> Value<'f> {
    /// The value of a row that a load left, in its part without type id and count.
    pub(crate) fn of(row: &Row, bytes: &'f [u8]) -> Value<'f> {
        match row.kind {
            Kind::Null => Value::Null,
            Kind::Byte => Value::Byte(u8::of_bytes(bytes)),
            Kind::SByte => Value::SByte(i8::of_bytes(bytes)),
            Kind::Int16 => Value::Int16(i16::of_bytes(bytes)),
            Kind::UInt16 => Value::UInt16(u16::of_bytes(bytes)),
            Kind::Int32 => Value::Int32(i32::of_bytes(bytes)),
            Kind::UInt32 => Value::UInt32(u32::of_bytes(bytes)),
            Kind::Int64 => Value::Int64(i64::of_bytes(bytes)),
            Kind::UInt64 => Value::UInt64(u64::of_bytes(bytes)),
            Kind::Single => Value::Single(f32::of_bytes(bytes)),
            Kind::Double => Value::Double(f64::of_bytes(bytes)),
            Kind::Boolean => Value::Boolean(bytes == [1]),
            Kind::Char => Value::Char(character(bytes)),
            Kind::String => {
                Value::String(std::str::from_utf8(bytes).expect("a load takes only UTF-8"))
            }
            Kind::Enum => Value::Enum(EnumValue::of(bytes)),
            Kind::Nullable => Value::Nullable((row.children > 0).then_some(row.number + 1)),
            Kind::Array => Value::Array(row.children),
            Kind::List => Value::List(row.children),
            Kind::Dictionary => Value::Dictionary(row.children / 2),
            Kind::TimeSpan => Value::TimeSpan(TimeSpan {
                ticks: i64::of_bytes(bytes),
            }),
            Kind::DateTime => {
                let moment = DateTime::of_packed(u64::of_bytes(bytes));
                Value::DateTime(moment.expect("a load takes only lawful ticks and zones"))
            }
            Kind::Decimal => Value::Decimal(Decimal::of_words(numbers(bytes))),
            Kind::Vector2 => Value::Vector2(numbers(bytes)),
            Kind::Vector3 => Value::Vector3(numbers(bytes)),
            Kind::Vector4 => Value::Vector4(numbers(bytes)),
            Kind::Matrix => Value::Matrix(numbers(bytes)),
            Kind::Quaternion => Value::Quaternion(numbers(bytes)),
            Kind::Color => Value::Color(numbers(bytes)),
            Kind::Point => {
                let [x, y] = numbers(bytes);
                Value::Point(Point { x, y })
            }
            Kind::Rectangle => Value::Rectangle(Rectangle::of(bytes)),
            Kind::Texture2D => Value::Texture2D(Texture::of(bytes, row.children)),
            Kind::SpriteFont => Value::SpriteFont,
            Kind::Page => Value::Page,
            Kind::ImageLevel => Value::ImageLevel(bytes),
            Kind::SharedReference => Value::SharedReference(match row.detail {
                Detail::ResourceId(id) => Some(id),
                _ => None,
            }),
            Kind::IndexBuffer => Value::IndexBuffer,
            Kind::VertexDeclaration => Value::VertexDeclaration,
            Kind::VertexBuffer => Value::VertexBuffer,
            Kind::Model => Value::Model,
            Kind::DataBytes => Value::DataBytes(bytes),
            Kind::BoneReference => {
                let bone = unsigned(bytes) as u32;
                Value::BoneReference(Some(bone).filter(|bone| *bone > 0))
            }
        }
    }
}

#[cfg(test)]
mod tests {
    use super::*;

    #[test]
    fn an_enum_is_read_with_and_without_a_sign() {
        let numbers = |bytes: &[u8]| {
            let number = EnumValue::of(bytes);
            (
                number.size(),
                number.unsigned(),
                number.signed(),
                number.usual(),
            )
        };
        assert_eq!(numbers(&[0xFE]), (1, 254, -2, 254));
        assert_eq!(numbers(&[0xFE, 0xFF]), (2, 65_534, -2, -2));
        assert_eq!(
            numbers(&[1, 0, 0, 0x80]),
            (4, 0x8000_0001, -0x7FFF_FFFF, -0x7FFF_FFFF)
        );
        assert_eq!(numbers(&[0xFF; 8]), (8, u64::MAX, -1, -1));
    }
}
