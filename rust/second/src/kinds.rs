//! The kinds of 01 and of Req 05: their numbers, names, sizes and arguments.

pub const NULL: u32 = 0;
pub const SBYTE: u32 = 2;
pub const INT16: u32 = 3;
pub const INT32: u32 = 5;
pub const UINT32: u32 = 6;
pub const INT64: u32 = 7;
pub const SINGLE: u32 = 9;
pub const BOOLEAN: u32 = 11;
pub const CHAR: u32 = 12;
pub const STRING: u32 = 13;
pub const OBJECT: u32 = 14;
pub const ENUM: u32 = 15;
pub const NULLABLE: u32 = 16;
pub const ARRAY: u32 = 17;
pub const LIST: u32 = 18;
pub const DICTIONARY: u32 = 19;
pub const TIME_SPAN: u32 = 20;
pub const DATE_TIME: u32 = 21;
pub const DECIMAL: u32 = 22;
pub const VECTOR3: u32 = 24;
pub const MATRIX: u32 = 26;
pub const RECTANGLE: u32 = 30;
pub const TEXTURE: u32 = 31;
pub const TEXTURE2D: u32 = 32;
pub const SPRITE_FONT: u32 = 33;
pub const PAGE: u32 = 34;
pub const IMAGE_LEVEL: u32 = 35;
pub const SHARED_REFERENCE: u32 = 36;
pub const INDEX_BUFFER: u32 = 37;
pub const VERTEX_DECLARATION: u32 = 38;
pub const VERTEX_BUFFER: u32 = 39;
pub const MODEL: u32 = 40;
pub const DATA_BYTES: u32 = 41;
pub const BONE_REFERENCE: u32 = 42;

/// One kind that has a reader.
struct Kind {
    number: u32,
    name: &'static str,
    /// What stands before the name in the target type's head.
    target_space: &'static str,
}

const fn kind(number: u32, name: &'static str, target_space: &'static str) -> Kind {
    Kind {
        number,
        name,
        target_space,
    }
}

const SYSTEM: &str = "System.";
const GENERIC: &str = "System.Collections.Generic.";
const XNA: &str = "Microsoft.Xna.Framework.";
const GRAPHICS: &str = "Microsoft.Xna.Framework.Graphics.";
const READERS: &str = "Microsoft.Xna.Framework.Content.";
const HOUSE: &str = "Coach.Console.";
/// Array and enum types have no head of their own.
const NO_HEAD: &str = "";

const KINDS: [Kind; 38] = [
    kind(1, "Byte", SYSTEM),
    kind(SBYTE, "SByte", SYSTEM),
    kind(INT16, "Int16", SYSTEM),
    kind(4, "UInt16", SYSTEM),
    kind(INT32, "Int32", SYSTEM),
    kind(UINT32, "UInt32", SYSTEM),
    kind(INT64, "Int64", SYSTEM),
    kind(8, "UInt64", SYSTEM),
    kind(SINGLE, "Single", SYSTEM),
    kind(10, "Double", SYSTEM),
    kind(BOOLEAN, "Boolean", SYSTEM),
    kind(CHAR, "Char", SYSTEM),
    kind(STRING, "String", SYSTEM),
    kind(OBJECT, "Object", SYSTEM),
    kind(ENUM, "Enum", NO_HEAD),
    kind(NULLABLE, "Nullable", SYSTEM),
    kind(ARRAY, "Array", NO_HEAD),
    kind(LIST, "List", GENERIC),
    kind(DICTIONARY, "Dictionary", GENERIC),
    kind(TIME_SPAN, "TimeSpan", SYSTEM),
    kind(DATE_TIME, "DateTime", SYSTEM),
    kind(DECIMAL, "Decimal", SYSTEM),
    kind(23, "Vector2", XNA),
    kind(VECTOR3, "Vector3", XNA),
    kind(25, "Vector4", XNA),
    kind(MATRIX, "Matrix", XNA),
    kind(27, "Quaternion", XNA),
    kind(28, "Color", XNA),
    kind(29, "Point", XNA),
    kind(RECTANGLE, "Rectangle", XNA),
    kind(TEXTURE, "Texture", GRAPHICS),
    kind(TEXTURE2D, "Texture2D", GRAPHICS),
    kind(SPRITE_FONT, "SpriteFont", GRAPHICS),
    kind(PAGE, "Page", HOUSE),
    kind(INDEX_BUFFER, "IndexBuffer", GRAPHICS),
    kind(VERTEX_DECLARATION, "VertexDeclaration", GRAPHICS),
    kind(VERTEX_BUFFER, "VertexBuffer", GRAPHICS),
    kind(MODEL, "Model", GRAPHICS),
];

impl Kind {
    fn has_reader_head(&self, head: &[u8]) -> bool {
        let space = if self.number == PAGE { HOUSE } else { READERS };
        is_joined(head, &[space, self.name, "Reader"])
    }

    fn has_target_head(&self, head: &[u8]) -> bool {
        self.target_space != NO_HEAD && is_joined(head, &[self.target_space, self.name])
    }
}

/// Whether the bytes are the parts, one behind the other.
fn is_joined(bytes: &[u8], parts: &[&str]) -> bool {
    let mut rest = bytes;
    for part in parts {
        match rest.strip_prefix(part.as_bytes()) {
            Some(behind) => rest = behind,
            None => return false,
        }
    }
    rest.is_empty()
}

/// The kind whose reader has this head.
pub fn kind_of_reader(head: &[u8]) -> Option<u32> {
    let kind = KINDS.iter().find(|kind| kind.has_reader_head(head))?;
    Some(kind.number)
}

/// The kind whose target type has this head.
pub fn kind_of_target(head: &[u8]) -> Option<u32> {
    let kind = KINDS.iter().find(|kind| kind.has_target_head(head))?;
    Some(kind.number)
}

/// How many arguments a reader or a target type of this kind takes.
pub fn argument_count(kind: u32) -> usize {
    match kind {
        ENUM | NULLABLE | ARRAY | LIST => 1,
        DICTIONARY => 2,
        _ => 0,
    }
}

/// Value types stand raw as elements and fields.
pub fn is_value_type(kind: u32) -> bool {
    matches!(kind, 1..=12 | 15 | 16 | 20..=30)
}

/// The size of a kind that always takes the same number of bytes; an enum's is given by its type.
pub fn fixed_size(kind: u32) -> Option<usize> {
    let size = match kind {
        1 | 2 | 11 => 1,
        3 | 4 => 2,
        5 | 6 | 9 | 28 => 4,
        7 | 8 | 10 | 20 | 21 | 23 | 29 => 8,
        24 => 12,
        22 | 25 | 27 | 30 => 16,
        26 => 64,
        _ => return None,
    };
    Some(size)
}
