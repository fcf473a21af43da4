//! The kinds of 01 and of Req 05: their numbers, names, sizes and arguments.

pub const NULL: u8 = 0;
pub const INT32: u8 = 5;
pub const UINT32: u8 = 6;
pub const SINGLE: u8 = 9;
pub const BOOLEAN: u8 = 11;
pub const CHAR: u8 = 12;
pub const STRING: u8 = 13;
pub const OBJECT: u8 = 14;
pub const ENUM: u8 = 15;
pub const NULLABLE: u8 = 16;
pub const ARRAY: u8 = 17;
pub const LIST: u8 = 18;
pub const DICTIONARY: u8 = 19;
pub const DATE_TIME: u8 = 21;
pub const DECIMAL: u8 = 22;
pub const VECTOR3: u8 = 24;
pub const MATRIX: u8 = 26;
pub const RECTANGLE: u8 = 30;
pub const TEXTURE: u8 = 31;
pub const TEXTURE2D: u8 = 32;
pub const SPRITE_FONT: u8 = 33;
pub const PAGE: u8 = 34;
pub const IMAGE_LEVEL: u8 = 35;
pub const SHARED_REFERENCE: u8 = 36;
pub const INDEX_BUFFER: u8 = 37;
pub const VERTEX_DECLARATION: u8 = 38;
pub const VERTEX_BUFFER: u8 = 39;
pub const MODEL: u8 = 40;
pub const DATA_BYTES: u8 = 41;
pub const BONE_REFERENCE: u8 = 42;

/// Sizes by kind; 0 where there is none, and for enums, whose types have theirs.
const SIZES: [u8; 31] = [
    0, 1, 1, 2, 2, 4, 4, 8, 8, 4, 8, 1, 0, 0, 0, 0, 0, 0, 0, 0, 8, 8, 16, 8, 12, 16, 64, 16, 4, 8,
    16,
];

/// The size of a kind that always takes the same number of bytes, else 0.
pub fn fixed_size(kind: u8) -> u8 {
    SIZES.get(usize::from(kind)).copied().unwrap_or(0)
}

/// How many arguments a reader or a target type of this kind takes.
pub fn argument_count(kind: u8) -> u8 {
    match kind {
        ENUM | NULLABLE | ARRAY | LIST => 1,
        DICTIONARY => 2,
        _ => 0,
    }
}

/// Value types that are no nullables themselves.
pub fn may_be_nullable(kind: u8) -> bool {
    matches!(kind, 1..=12 | 15 | 20..=30)
}

/// The kind whose target type has this head.
pub fn kind_of_target(head: &[u8]) -> Option<u8> {
    if let Some(rest) = head.strip_prefix(b"System.") {
        return match rest.strip_prefix(b"Collections.Generic.") {
            Some(rest) => generic_kind(rest),
            None => system_kind(rest),
        };
    }
    if let Some(rest) = head.strip_prefix(b"Microsoft.Xna.Framework.") {
        return match rest.strip_prefix(b"Graphics.") {
            Some(rest) => graphics_kind(rest),
            None => xna_kind(rest),
        };
    }
    (head == b"Coach.Console.Page").then_some(PAGE)
}

/// The kind whose reader has this head.
pub fn kind_of_reader(head: &[u8]) -> Option<u8> {
    let name = head.strip_suffix(b"Reader")?;
    let Some(name) = name.strip_prefix(b"Microsoft.Xna.Framework.Content.") else {
        return (name == b"Coach.Console.Page").then_some(PAGE);
    };
    match name {
        b"Enum" => Some(ENUM),
        b"Array" => Some(ARRAY),
        _ => system_kind(name)
            .or_else(|| generic_kind(name))
            .or_else(|| xna_kind(name))
            .or_else(|| graphics_kind(name)),
    }
}

fn system_kind(name: &[u8]) -> Option<u8> {
    Some(match name {
        b"Byte" => 1,
        b"SByte" => 2,
        b"Int16" => 3,
        b"UInt16" => 4,
        b"Int32" => INT32,
        b"UInt32" => UINT32,
        b"Int64" => 7,
        b"UInt64" => 8,
        b"Single" => SINGLE,
        b"Double" => 10,
        b"Boolean" => BOOLEAN,
        b"Char" => CHAR,
        b"String" => STRING,
        b"Object" => OBJECT,
        b"Nullable" => NULLABLE,
        b"TimeSpan" => 20,
        b"DateTime" => DATE_TIME,
        b"Decimal" => DECIMAL,
        _ => return None,
    })
}

fn generic_kind(name: &[u8]) -> Option<u8> {
    Some(match name {
        b"List" => LIST,
        b"Dictionary" => DICTIONARY,
        _ => return None,
    })
}

fn xna_kind(name: &[u8]) -> Option<u8> {
    Some(match name {
        b"Vector2" => 23,
        b"Vector3" => VECTOR3,
        b"Vector4" => 25,
        b"Matrix" => MATRIX,
        b"Quaternion" => 27,
        b"Color" => 28,
        b"Point" => 29,
        b"Rectangle" => RECTANGLE,
        _ => return None,
    })
}

fn graphics_kind(name: &[u8]) -> Option<u8> {
    Some(match name {
        b"Texture" => TEXTURE,
        b"Texture2D" => TEXTURE2D,
        b"SpriteFont" => SPRITE_FONT,
        b"IndexBuffer" => INDEX_BUFFER,
        b"VertexDeclaration" => VERTEX_DECLARATION,
        b"VertexBuffer" => VERTEX_BUFFER,
        b"Model" => MODEL,
        _ => return None,
    })
}
