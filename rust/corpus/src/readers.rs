//! Names of readers, as document 000 and the house rules give them.

use crate::names::at_mark;
use crate::writer::{Part, Role, Seven};

pub const BYTE: &str = "Microsoft.Xna.Framework.Content.ByteReader";
pub const SBYTE: &str = "Microsoft.Xna.Framework.Content.SByteReader";
pub const INT16: &str = "Microsoft.Xna.Framework.Content.Int16Reader";
pub const UINT16: &str = "Microsoft.Xna.Framework.Content.UInt16Reader";
pub const INT32: &str = "Microsoft.Xna.Framework.Content.Int32Reader";
pub const UINT32: &str = "Microsoft.Xna.Framework.Content.UInt32Reader";
pub const INT64: &str = "Microsoft.Xna.Framework.Content.Int64Reader";
pub const UINT64: &str = "Microsoft.Xna.Framework.Content.UInt64Reader";
pub const SINGLE: &str = "Microsoft.Xna.Framework.Content.SingleReader";
pub const DOUBLE: &str = "Microsoft.Xna.Framework.Content.DoubleReader";
pub const BOOLEAN: &str = "Microsoft.Xna.Framework.Content.BooleanReader";
pub const CHAR: &str = "Microsoft.Xna.Framework.Content.CharReader";
pub const STRING: &str = "Microsoft.Xna.Framework.Content.StringReader";
pub const OBJECT: &str = "Microsoft.Xna.Framework.Content.ObjectReader";
pub const TIME_SPAN: &str = "Microsoft.Xna.Framework.Content.TimeSpanReader";
pub const DATE_TIME: &str = "Microsoft.Xna.Framework.Content.DateTimeReader";
pub const DECIMAL: &str = "Microsoft.Xna.Framework.Content.DecimalReader";
pub const VECTOR2: &str = "Microsoft.Xna.Framework.Content.Vector2Reader";
pub const VECTOR3: &str = "Microsoft.Xna.Framework.Content.Vector3Reader";
pub const VECTOR4: &str = "Microsoft.Xna.Framework.Content.Vector4Reader";
pub const MATRIX: &str = "Microsoft.Xna.Framework.Content.MatrixReader";
pub const QUATERNION: &str = "Microsoft.Xna.Framework.Content.QuaternionReader";
pub const COLOR: &str = "Microsoft.Xna.Framework.Content.ColorReader";
pub const POINT: &str = "Microsoft.Xna.Framework.Content.PointReader";
pub const RECTANGLE: &str = "Microsoft.Xna.Framework.Content.RectangleReader";
pub const TEXTURE: &str = "Microsoft.Xna.Framework.Content.TextureReader";
pub const TEXTURE2D: &str = "Microsoft.Xna.Framework.Content.Texture2DReader";
pub const SPRITE_FONT: &str = "Microsoft.Xna.Framework.Content.SpriteFontReader";
pub const PAGE: &str = "Coach.Console.PageReader";
pub const INDEX_BUFFER: &str = "Microsoft.Xna.Framework.Content.IndexBufferReader";
pub const VERTEX_DECLARATION: &str = "Microsoft.Xna.Framework.Content.VertexDeclarationReader";
pub const VERTEX_BUFFER: &str = "Microsoft.Xna.Framework.Content.VertexBufferReader";
pub const MODEL: &str = "Microsoft.Xna.Framework.Content.ModelReader";

/// What follows a name in real files: an assembly, its version and its key.
pub const XNA_TAIL: &str = ", Microsoft.Xna.Framework.Graphics, Version=4.0.0.0, Culture=neutral, PublicKeyToken=842cf8be1de50553";
pub const SYSTEM_TAIL: &str =
    ", mscorlib, Version=4.0.0.0, Culture=neutral, PublicKeyToken=b77a5c561934e089";

pub fn enum_of(name: &str) -> String {
    format!("Microsoft.Xna.Framework.Content.EnumReader`1[[{name}]]")
}

pub fn nullable_of(target: &str) -> String {
    format!("Microsoft.Xna.Framework.Content.NullableReader`1[[{target}]]")
}

pub fn array_of(target: &str) -> String {
    format!("Microsoft.Xna.Framework.Content.ArrayReader`1[[{target}]]")
}

pub fn list_of(target: &str) -> String {
    format!("Microsoft.Xna.Framework.Content.ListReader`1[[{target}]]")
}

pub fn dictionary_of(key: &str, value: &str) -> String {
    format!("Microsoft.Xna.Framework.Content.DictionaryReader`2[[{key}],[{value}]]")
}

/// The target name of a list.
pub fn list_target(target: &str) -> String {
    format!("System.Collections.Generic.List`1[[{target}]]")
}

/// The target name of a dictionary.
pub fn dictionary_target(key: &str, value: &str) -> String {
    format!("System.Collections.Generic.Dictionary`2[[{key}],[{value}]]")
}

/// The target name of a nullable.
pub fn nullable_target(target: &str) -> String {
    format!("System.Nullable`1[[{target}]]")
}

/// One reader of the list: its name's length, its name and version 0.
pub fn reader(name: &str) -> Vec<Part> {
    let value = name.len() as u32;
    vec![
        Part::Seven(Role::NameLength, Seven { value, width: 0 }),
        Part::Data(name.as_bytes().to_vec()),
        Part::Field(Role::ReaderVersion, vec![0; 4]),
    ]
}

/// One reader whose name is refused at its mark.
pub fn marked_reader(marked: &str) -> Vec<Part> {
    let (before, behind) = at_mark(marked);
    let value = (before.len() + behind.len()) as u32;
    vec![
        Part::Seven(Role::NameLength, Seven { value, width: 0 }),
        Part::Data(before.into_bytes()),
        Part::Fault,
        Part::Data(behind.into_bytes()),
        Part::Field(Role::ReaderVersion, vec![0; 4]),
    ]
}
