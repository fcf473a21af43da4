//! Reader names, good and bad, with the refusal that each must meet.

pub mod parts;

/// Stands in a name before the byte at which the name is refused, or at its end; it is no byte of the name.
const MARK: char = '»';

/// A reader name, and the refusal that it must meet.
#[derive(Clone, Debug, PartialEq, Eq)]
pub struct Judged {
    /// 0 for a good name.
    pub number: u32,
    /// Where in the name it is refused, from its first byte on; 0 for a good name.
    pub place: usize,
    pub name: String,
}

/// A name that is refused at its mark.
pub fn judged(number: u32, marked: &str) -> Judged {
    let (before, behind) = at_mark(marked);
    Judged {
        number,
        place: if number == 0 { 0 } else { before.len() },
        name: before + &behind,
    }
}

/// What stands before and behind the mark of a name; a good name has none.
pub fn at_mark(marked: &str) -> (String, String) {
    let (before, behind) = marked.split_once(MARK).unwrap_or((marked, ""));
    assert!(!behind.contains(MARK), "{marked} has one mark");
    (before.to_string(), behind.to_string())
}

/// 0 for a good name, 33 to 38 for broken grammar, 11 for a head or an argument that is not lawful.
pub const TABLE: &[(u32, &str)] = &[
    // Every reader of 000 that the base takes, and the house reader.
    (0, "Microsoft.Xna.Framework.Content.ByteReader"),
    (0, "Microsoft.Xna.Framework.Content.SByteReader"),
    (0, "Microsoft.Xna.Framework.Content.Int16Reader"),
    (0, "Microsoft.Xna.Framework.Content.UInt16Reader"),
    (0, "Microsoft.Xna.Framework.Content.Int32Reader"),
    (0, "Microsoft.Xna.Framework.Content.UInt32Reader"),
    (0, "Microsoft.Xna.Framework.Content.Int64Reader"),
    (0, "Microsoft.Xna.Framework.Content.UInt64Reader"),
    (0, "Microsoft.Xna.Framework.Content.SingleReader"),
    (0, "Microsoft.Xna.Framework.Content.DoubleReader"),
    (0, "Microsoft.Xna.Framework.Content.BooleanReader"),
    (0, "Microsoft.Xna.Framework.Content.CharReader"),
    (0, "Microsoft.Xna.Framework.Content.StringReader"),
    (0, "Microsoft.Xna.Framework.Content.ObjectReader"),
    (0, "Microsoft.Xna.Framework.Content.TimeSpanReader"),
    (0, "Microsoft.Xna.Framework.Content.DateTimeReader"),
    (0, "Microsoft.Xna.Framework.Content.DecimalReader"),
    (0, "Microsoft.Xna.Framework.Content.Vector2Reader"),
    (0, "Microsoft.Xna.Framework.Content.Vector3Reader"),
    (0, "Microsoft.Xna.Framework.Content.Vector4Reader"),
    (0, "Microsoft.Xna.Framework.Content.MatrixReader"),
    (0, "Microsoft.Xna.Framework.Content.QuaternionReader"),
    (0, "Microsoft.Xna.Framework.Content.ColorReader"),
    (0, "Microsoft.Xna.Framework.Content.PointReader"),
    (0, "Microsoft.Xna.Framework.Content.RectangleReader"),
    (0, "Microsoft.Xna.Framework.Content.TextureReader"),
    (0, "Microsoft.Xna.Framework.Content.Texture2DReader"),
    (0, "Microsoft.Xna.Framework.Content.SpriteFontReader"),
    (0, "Coach.Console.PageReader"),
    (0, "Microsoft.Xna.Framework.Content.IndexBufferReader"),
    (0, "Microsoft.Xna.Framework.Content.VertexDeclarationReader"),
    (0, "Microsoft.Xna.Framework.Content.VertexBufferReader"),
    (0, "Microsoft.Xna.Framework.Content.ModelReader"),
    // Arguments.
    (0, "Microsoft.Xna.Framework.Content.ArrayReader`1[[System.Char]]"),
    (0, "Microsoft.Xna.Framework.Content.ArrayReader`1[[System.Object]]"),
    (0, "Microsoft.Xna.Framework.Content.ListReader`1[[Microsoft.Xna.Framework.Rectangle]]"),
    (0, "Microsoft.Xna.Framework.Content.ListReader`1[[Microsoft.Xna.Framework.Graphics.Texture]]"),
    (0, "Microsoft.Xna.Framework.Content.ListReader`1[[Microsoft.Xna.Framework.Graphics.Texture2D]]"),
    (0, "Microsoft.Xna.Framework.Content.ListReader`1[[Microsoft.Xna.Framework.Graphics.SpriteFont]]"),
    (0, "Microsoft.Xna.Framework.Content.ListReader`1[[Coach.Console.Page]]"),
    (0, "Microsoft.Xna.Framework.Content.ListReader`1[[System.Collections.Generic.List`1[[System.Byte]]]]"),
    (0, "Microsoft.Xna.Framework.Content.DictionaryReader`2[[System.String],[System.Decimal]]"),
    (0, "Microsoft.Xna.Framework.Content.DictionaryReader`2[[System.Nullable`1[[System.DateTime]]],[System.Collections.Generic.Dictionary`2[[System.Char],[System.TimeSpan]]]]"),
    (0, "Microsoft.Xna.Framework.Content.NullableReader`1[[Microsoft.Xna.Framework.Quaternion]]"),
    (0, "Microsoft.Xna.Framework.Content.EnumReader`1[[Coach.Door]]"),
    (0, "Microsoft.Xna.Framework.Content.DictionaryReader`2[[System.Char],[Microsoft.Xna.Framework.Rectangle]]"),
    (0, "Microsoft.Xna.Framework.Content.ListReader`1[[System.Collections.Generic.List`1[[System.Char]]]]"),
    // Enum's own argument is any other name, even a reader's or that of a type of 000 without a kind.
    (0, "Microsoft.Xna.Framework.Content.EnumReader`1[[A]]"),
    (0, "Microsoft.Xna.Framework.Content.EnumReader`1[[.+_9]]"),
    (0, "Microsoft.Xna.Framework.Content.EnumReader`1[[System.Enum]]"),
    (0, "Microsoft.Xna.Framework.Content.EnumReader`1[[system.int32]]"),
    (0, "Microsoft.Xna.Framework.Content.EnumReader`1[[Microsoft.Xna.Framework.Plane]]"),
    (0, "Microsoft.Xna.Framework.Content.EnumReader`1[[Microsoft.Xna.Framework.Graphics.Effect]]"),
    (0, "Microsoft.Xna.Framework.Content.EnumReader`1[[Microsoft.Xna.Framework.Graphics.VertexElementFormat]]"),
    (0, "Microsoft.Xna.Framework.Content.EnumReader`1[[Microsoft.Xna.Framework.Content.ByteReader]]"),
    (0, "Microsoft.Xna.Framework.Content.EnumReader`1[[Coach.Door, Coach, Version=1.0.0.0]], Any"),
    // Tails.
    (0, "Microsoft.Xna.Framework.Content.ByteReader,"),
    (0, "Microsoft.Xna.Framework.Content.ByteReader, ,,`1 ~"),
    (0, "Microsoft.Xna.Framework.Content.Texture2DReader, Microsoft.Xna.Framework.Graphics, Version=4.0.0.0, Culture=neutral, PublicKeyToken=842cf8be1de50553"),
    (0, "Microsoft.Xna.Framework.Content.ListReader`1[[System.Char, mscorlib, Version=4.0.0.0, Culture=neutral, PublicKeyToken=b77a5c561934e089]]"),
    (0, "Microsoft.Xna.Framework.Content.ListReader`1[[System.Char,]],"),
    (0, "Microsoft.Xna.Framework.Content.DictionaryReader`2[[System.Char, a],[System.Byte, b]], c"),
    (37, "Microsoft.Xna.Framework.Content.ByteReader, a»[b"),
    (37, "Microsoft.Xna.Framework.Content.ByteReader, a»]"),
    (37, "Microsoft.Xna.Framework.Content.ByteReader,»\t"),
    (37, "Microsoft.Xna.Framework.Content.ByteReader, »\u{7F}"),
    (37, "Microsoft.Xna.Framework.Content.ByteReader, »é"),
    (37, "Microsoft.Xna.Framework.Content.ByteReader, »\0"),
    // Heads that are broken.
    (33, "»,"),
    (33, "»`1[[System.Byte]]"),
    (33, "» Microsoft.Xna.Framework.Content.ByteReader"),
    (34, "Microsoft.Xna.Framework.Content.ByteReader» "),
    (34, "Microsoft.Xna.Framework.Content»-ByteReader"),
    (34, "Microsoft»/Xna"),
    (34, "Microsoft.Xna.Framework.Content.ByteRead»ér"),
    (34, "System.Byte»[]"),
    (33, "»]"),
    (34, "Microsoft.Xna.Framework.Content.ByteReader»]"),
    // Digits.
    (35, "Microsoft.Xna.Framework.Content.ListReader`»0[[System.Byte]]"),
    (35, "Microsoft.Xna.Framework.Content.ListReader`»3[[System.Byte],[System.Byte],[System.Byte]]"),
    (35, "Microsoft.Xna.Framework.Content.ListReader`»9[[System.Byte]]"),
    (35, "Microsoft.Xna.Framework.Content.ListReader`»[[System.Byte]]"),
    (35, "Microsoft.Xna.Framework.Content.ListReader`»a[[System.Byte]]"),
    (36, "Microsoft.Xna.Framework.Content.ListReader`1»1[[System.Byte]]"),
    (36, "Microsoft.Xna.Framework.Content.ListReader`1[[System.Byte]»,[System.Byte]]"),
    (36, "Microsoft.Xna.Framework.Content.DictionaryReader`2[[System.Byte]»]"),
    (36, "Microsoft.Xna.Framework.Content.DictionaryReader`2[[System.Byte],[System.Byte]»,[System.Byte]]"),
    // Brackets.
    (36, "Microsoft.Xna.Framework.Content.ListReader`1»"),
    (36, "Microsoft.Xna.Framework.Content.ListReader`1», tail"),
    (36, "Microsoft.Xna.Framework.Content.ListReader`1[»]"),
    (33, "Microsoft.Xna.Framework.Content.ListReader`1[[»]]"),
    (36, "Microsoft.Xna.Framework.Content.ListReader`1[»System.Byte]"),
    (36, "Microsoft.Xna.Framework.Content.ListReader`1[[System.Byte]»"),
    (36, "Microsoft.Xna.Framework.Content.ListReader`1[[System.Byte»"),
    (36, "Microsoft.Xna.Framework.Content.ListReader`1[[System.Byte]]»]"),
    (36, "Microsoft.Xna.Framework.Content.ListReader`1[[System.Byte]]»tail"),
    (36, "Microsoft.Xna.Framework.Content.ListReader`1[[System.Byte]]»`1[[System.Byte]]"),
    (34, "Microsoft.Xna.Framework.Content.ListReader`1[[System.Byte»[]]]"),
    (34, "Microsoft.Xna.Framework.Content.ListReader»[[System.Byte]]"),
    (36, "Microsoft.Xna.Framework.Content.ListReader`1» [[System.Byte]]"),
    (33, "Microsoft.Xna.Framework.Content.ListReader`1[[»,System.Byte]]"),
    (36, "Microsoft.Xna.Framework.Content.DictionaryReader`2[[System.Byte]»[System.Byte]]"),
    (36, "Microsoft.Xna.Framework.Content.DictionaryReader`2[[System.Byte],» [System.Byte]]"),
    (36, "Microsoft.Xna.Framework.Content.DictionaryReader`2[[System.Byte],[System.Byte]»"),
    (33, "Microsoft.Xna.Framework.Content.DictionaryReader`2[[System.Byte],[»]]"),
    // Grammar is judged over the whole name before heads.
    (36, "Unknown`1[[System.Byte]»"),
    (37, "Unknown`1[[Unknown]], »]"),
    (35, "Microsoft.Xna.Framework.Content.DictionaryReader`2[[Unknown],[System.Byte`»4[[A]]]]"),
    // Unknown heads.
    (11, "»A"),
    (11, "»System.Byte"),
    (11, "»ByteReader"),
    (11, "»Byte"),
    (11, "»Coach.Console.Page"),
    (11, "»Coach.Console.pageReader"),
    (11, "»Microsoft.Xna.Framework.Content.PageReader"),
    (11, "»Microsoft.Xna.Framework.Content.byteReader"),
    (11, "»Microsoft.Xna.Framework.Content.ByteReader."),
    (11, "»Microsoft.Xna.Framework.Content.ByteReaderX"),
    (11, "»Microsoft.Xna.Framework.Content.Byte"),
    (11, "»Microsoft.Xna.Framework.Content.Reader"),
    (11, "»Microsoft.Xna.Framework.Content.PlaneReader"),
    (11, "»Microsoft.Xna.Framework.Content.EffectReader"),
    (11, "»Microsoft.Xna.Framework.Content.BasicEffectReader"),
    (11, "»Microsoft.Xna.Framework.Content.DataBytesReader"),
    (11, "»Microsoft.Xna.Framework.Content.BoneReferenceReader"),
    (11, "»Microsoft.Xna.Framework.Content.Texture3DReader"),
    (11, "»Microsoft.Xna.Framework.Content.NullReader"),
    (11, "»Microsoft.Xna.Framework.Content.ReflectiveReader`1[[Coach.Console.Page]]"),
    (11, "Microsoft.Xna.Framework.Content.ListReader`1[[»System.byte]]"),
    (11, "Microsoft.Xna.Framework.Content.ListReader`1[[»System.Rectangle]]"),
    (11, "Microsoft.Xna.Framework.Content.ListReader`1[[»Microsoft.Xna.Framework.Texture2D]]"),
    (11, "Microsoft.Xna.Framework.Content.ListReader`1[[»Microsoft.Xna.Framework.Plane]]"),
    (11, "Microsoft.Xna.Framework.Content.ListReader`1[[»Microsoft.Xna.Framework.Graphics.Effect]]"),
    (11, "Microsoft.Xna.Framework.Content.ListReader`1[[»Microsoft.Xna.Framework.Graphics.Model2]]"),
    (11, "Microsoft.Xna.Framework.Content.ListReader`1[[»Microsoft.Xna.Framework.Model]]"),
    (11, "Microsoft.Xna.Framework.Content.ListReader`1[[»Coach.Door]]"),
    (11, "Microsoft.Xna.Framework.Content.ListReader`1[[»System.Array]]"),
    (11, "Microsoft.Xna.Framework.Content.ListReader`1[[»System.Enum]]"),
    (11, "Microsoft.Xna.Framework.Content.ListReader`1[[»Microsoft.Xna.Framework.Content.ByteReader]]"),
    (11, "Microsoft.Xna.Framework.Content.DictionaryReader`2[[System.Byte],[»Unknown]]"),
    // The parts of names that 01 shows, as readers.
    (33, "»[[A]]"),
    (33, "»[[A],[B]]"),
    (11, "»Microsoft.Xna.Framework.Content."),
    (11, "»Reader"),
    (11, "»System.Char"),
    (11, "»Microsoft.Xna.Framework.Rectangle"),
    (11, "»System.Collections.Generic.List"),
    (11, "»System.Collections.Generic.List`1[[System.Char]]"),
    (11, "»Microsoft.Xna.Framework.Graphics."),
    (11, "Microsoft.Xna.Framework.Content.ListReader`1[[»A]]"),
    (11, "Microsoft.Xna.Framework.Content.DictionaryReader`2[[»A],[B]]"),
    // Wrong argument counts.
    (11, "»Microsoft.Xna.Framework.Content.ByteReader`1[[System.Byte]]"),
    (11, "»Microsoft.Xna.Framework.Content.ListReader"),
    (11, "»Microsoft.Xna.Framework.Content.ListReader`2[[System.Byte],[System.Byte]]"),
    (11, "»Microsoft.Xna.Framework.Content.DictionaryReader`1[[System.Byte]]"),
    (11, "»Microsoft.Xna.Framework.Content.ArrayReader"),
    (11, "»Microsoft.Xna.Framework.Content.NullableReader"),
    (11, "»Microsoft.Xna.Framework.Content.EnumReader"),
    (11, "»Microsoft.Xna.Framework.Content.EnumReader`2[[Coach.Door],[Coach.Door]]"),
    (11, "»Coach.Console.PageReader`1[[Coach.Console.Page]]"),
    (11, "Microsoft.Xna.Framework.Content.ListReader`1[[»System.Collections.Generic.List]]"),
    (11, "Microsoft.Xna.Framework.Content.ListReader`1[[»System.Collections.Generic.Dictionary`1[[System.Byte]]]]"),
    (11, "Microsoft.Xna.Framework.Content.ListReader`1[[»System.String`1[[System.Char]]]]"),
    // Enum's rule.
    (11, "Microsoft.Xna.Framework.Content.EnumReader`1[[»System.Int32]]"),
    (11, "Microsoft.Xna.Framework.Content.EnumReader`1[[»System.Object]]"),
    (11, "Microsoft.Xna.Framework.Content.EnumReader`1[[»Microsoft.Xna.Framework.Graphics.Texture]]"),
    (11, "Microsoft.Xna.Framework.Content.EnumReader`1[[»System.Nullable]]"),
    (11, "Microsoft.Xna.Framework.Content.EnumReader`1[[»System.Collections.Generic.List]]"),
    (11, "Microsoft.Xna.Framework.Content.EnumReader`1[[»System.Collections.Generic.Dictionary]]"),
    (11, "Microsoft.Xna.Framework.Content.EnumReader`1[[»Coach.Console.Page]]"),
    (11, "Microsoft.Xna.Framework.Content.EnumReader`1[[»Coach.Door`1[[System.Byte]]]]"),
    (11, "Microsoft.Xna.Framework.Content.EnumReader`1[[»System.Int32, mscorlib]]"),
    // Nullable's rule.
    (11, "Microsoft.Xna.Framework.Content.NullableReader`1[[»System.String]]"),
    (11, "Microsoft.Xna.Framework.Content.NullableReader`1[[»System.Object]]"),
    (11, "Microsoft.Xna.Framework.Content.NullableReader`1[[»Coach.Door]]"),
    (11, "Microsoft.Xna.Framework.Content.NullableReader`1[[»Coach.Console.Page]]"),
    (11, "Microsoft.Xna.Framework.Content.NullableReader`1[[»System.Nullable`1[[System.Byte]]]]"),
    (11, "Microsoft.Xna.Framework.Content.NullableReader`1[[»System.Collections.Generic.List`1[[System.Byte]]]]"),
    (11, "Microsoft.Xna.Framework.Content.NullableReader`1[[»Microsoft.Xna.Framework.Graphics.Texture2D]]"),
    (11, "Microsoft.Xna.Framework.Content.ListReader`1[[System.Nullable`1[[»System.String]]]]"),
    (11, "Microsoft.Xna.Framework.Content.ListReader`1[[System.Nullable`1[[»System.Nullable`1[[System.Byte]]]]]]"),
    // Every reader without arguments, with one.
    (11, "»Microsoft.Xna.Framework.Content.SByteReader`1[[System.Byte]]"),
    (11, "»Microsoft.Xna.Framework.Content.Int16Reader`1[[System.Byte]]"),
    (11, "»Microsoft.Xna.Framework.Content.UInt16Reader`1[[System.Byte]]"),
    (11, "»Microsoft.Xna.Framework.Content.Int32Reader`1[[System.Byte]]"),
    (11, "»Microsoft.Xna.Framework.Content.UInt32Reader`1[[System.Byte]]"),
    (11, "»Microsoft.Xna.Framework.Content.Int64Reader`1[[System.Byte]]"),
    (11, "»Microsoft.Xna.Framework.Content.UInt64Reader`1[[System.Byte]]"),
    (11, "»Microsoft.Xna.Framework.Content.SingleReader`1[[System.Byte]]"),
    (11, "»Microsoft.Xna.Framework.Content.DoubleReader`1[[System.Byte]]"),
    (11, "»Microsoft.Xna.Framework.Content.BooleanReader`1[[System.Byte]]"),
    (11, "»Microsoft.Xna.Framework.Content.CharReader`1[[System.Byte]]"),
    (11, "»Microsoft.Xna.Framework.Content.StringReader`1[[System.Byte]]"),
    (11, "»Microsoft.Xna.Framework.Content.ObjectReader`1[[System.Byte]]"),
    (11, "»Microsoft.Xna.Framework.Content.TimeSpanReader`1[[System.Byte]]"),
    (11, "»Microsoft.Xna.Framework.Content.DateTimeReader`1[[System.Byte]]"),
    (11, "»Microsoft.Xna.Framework.Content.DecimalReader`1[[System.Byte]]"),
    (11, "»Microsoft.Xna.Framework.Content.Vector2Reader`1[[System.Byte]]"),
    (11, "»Microsoft.Xna.Framework.Content.Vector3Reader`1[[System.Byte]]"),
    (11, "»Microsoft.Xna.Framework.Content.Vector4Reader`1[[System.Byte]]"),
    (11, "»Microsoft.Xna.Framework.Content.MatrixReader`1[[System.Byte]]"),
    (11, "»Microsoft.Xna.Framework.Content.QuaternionReader`1[[System.Byte]]"),
    (11, "»Microsoft.Xna.Framework.Content.ColorReader`1[[System.Byte]]"),
    (11, "»Microsoft.Xna.Framework.Content.PointReader`1[[System.Byte]]"),
    (11, "»Microsoft.Xna.Framework.Content.RectangleReader`1[[System.Byte]]"),
    (11, "»Microsoft.Xna.Framework.Content.TextureReader`1[[System.Byte]]"),
    (11, "»Microsoft.Xna.Framework.Content.Texture2DReader`1[[System.Byte]]"),
    (11, "»Microsoft.Xna.Framework.Content.SpriteFontReader`1[[System.Byte]]"),
    (11, "»Coach.Console.PageReader`1[[System.Byte]]"),
    (11, "»Microsoft.Xna.Framework.Content.IndexBufferReader`1[[System.Byte]]"),
    (11, "»Microsoft.Xna.Framework.Content.VertexDeclarationReader`1[[System.Byte]]"),
    (11, "»Microsoft.Xna.Framework.Content.VertexBufferReader`1[[System.Byte]]"),
    (11, "»Microsoft.Xna.Framework.Content.ModelReader`1[[System.Byte]]"),
    // Every reader with arguments, with none and with another number of them.
    (11, "»Microsoft.Xna.Framework.Content.DictionaryReader"),
    (11, "»Microsoft.Xna.Framework.Content.EnumReader`2[[System.Byte],[System.Byte]]"),
    (11, "»Microsoft.Xna.Framework.Content.NullableReader`2[[System.Byte],[System.Byte]]"),
    (11, "»Microsoft.Xna.Framework.Content.ArrayReader`2[[System.Byte],[System.Byte]]"),
    // Every target name without arguments, with one.
    (11, "Microsoft.Xna.Framework.Content.ListReader`1[[»System.Byte`1[[System.Byte]]]]"),
    (11, "Microsoft.Xna.Framework.Content.ListReader`1[[»System.SByte`1[[System.Byte]]]]"),
    (11, "Microsoft.Xna.Framework.Content.ListReader`1[[»System.Int16`1[[System.Byte]]]]"),
    (11, "Microsoft.Xna.Framework.Content.ListReader`1[[»System.UInt16`1[[System.Byte]]]]"),
    (11, "Microsoft.Xna.Framework.Content.ListReader`1[[»System.Int32`1[[System.Byte]]]]"),
    (11, "Microsoft.Xna.Framework.Content.ListReader`1[[»System.UInt32`1[[System.Byte]]]]"),
    (11, "Microsoft.Xna.Framework.Content.ListReader`1[[»System.Int64`1[[System.Byte]]]]"),
    (11, "Microsoft.Xna.Framework.Content.ListReader`1[[»System.UInt64`1[[System.Byte]]]]"),
    (11, "Microsoft.Xna.Framework.Content.ListReader`1[[»System.Single`1[[System.Byte]]]]"),
    (11, "Microsoft.Xna.Framework.Content.ListReader`1[[»System.Double`1[[System.Byte]]]]"),
    (11, "Microsoft.Xna.Framework.Content.ListReader`1[[»System.Boolean`1[[System.Byte]]]]"),
    (11, "Microsoft.Xna.Framework.Content.ListReader`1[[»System.Char`1[[System.Byte]]]]"),
    (11, "Microsoft.Xna.Framework.Content.ListReader`1[[»System.String`1[[System.Byte]]]]"),
    (11, "Microsoft.Xna.Framework.Content.ListReader`1[[»System.Object`1[[System.Byte]]]]"),
    (11, "Microsoft.Xna.Framework.Content.ListReader`1[[»System.TimeSpan`1[[System.Byte]]]]"),
    (11, "Microsoft.Xna.Framework.Content.ListReader`1[[»System.DateTime`1[[System.Byte]]]]"),
    (11, "Microsoft.Xna.Framework.Content.ListReader`1[[»System.Decimal`1[[System.Byte]]]]"),
    (11, "Microsoft.Xna.Framework.Content.ListReader`1[[»Microsoft.Xna.Framework.Vector2`1[[System.Byte]]]]"),
    (11, "Microsoft.Xna.Framework.Content.ListReader`1[[»Microsoft.Xna.Framework.Vector3`1[[System.Byte]]]]"),
    (11, "Microsoft.Xna.Framework.Content.ListReader`1[[»Microsoft.Xna.Framework.Vector4`1[[System.Byte]]]]"),
    (11, "Microsoft.Xna.Framework.Content.ListReader`1[[»Microsoft.Xna.Framework.Matrix`1[[System.Byte]]]]"),
    (11, "Microsoft.Xna.Framework.Content.ListReader`1[[»Microsoft.Xna.Framework.Quaternion`1[[System.Byte]]]]"),
    (11, "Microsoft.Xna.Framework.Content.ListReader`1[[»Microsoft.Xna.Framework.Color`1[[System.Byte]]]]"),
    (11, "Microsoft.Xna.Framework.Content.ListReader`1[[»Microsoft.Xna.Framework.Point`1[[System.Byte]]]]"),
    (11, "Microsoft.Xna.Framework.Content.ListReader`1[[»Microsoft.Xna.Framework.Rectangle`1[[System.Byte]]]]"),
    (11, "Microsoft.Xna.Framework.Content.ListReader`1[[»Microsoft.Xna.Framework.Graphics.Texture`1[[System.Byte]]]]"),
    (11, "Microsoft.Xna.Framework.Content.ListReader`1[[»Microsoft.Xna.Framework.Graphics.Texture2D`1[[System.Byte]]]]"),
    (11, "Microsoft.Xna.Framework.Content.ListReader`1[[»Microsoft.Xna.Framework.Graphics.SpriteFont`1[[System.Byte]]]]"),
    (11, "Microsoft.Xna.Framework.Content.ListReader`1[[»Coach.Console.Page`1[[System.Byte]]]]"),
    (11, "Microsoft.Xna.Framework.Content.ListReader`1[[»Microsoft.Xna.Framework.Graphics.IndexBuffer`1[[System.Byte]]]]"),
    (11, "Microsoft.Xna.Framework.Content.ListReader`1[[»Microsoft.Xna.Framework.Graphics.VertexDeclaration`1[[System.Byte]]]]"),
    (11, "Microsoft.Xna.Framework.Content.ListReader`1[[»Microsoft.Xna.Framework.Graphics.VertexBuffer`1[[System.Byte]]]]"),
    (11, "Microsoft.Xna.Framework.Content.ListReader`1[[»Microsoft.Xna.Framework.Graphics.Model`1[[System.Byte]]]]"),
    // Every target name with arguments, with none and with another number of them.
    (11, "Microsoft.Xna.Framework.Content.ListReader`1[[»System.Nullable]]"),
    (11, "Microsoft.Xna.Framework.Content.ListReader`1[[»System.Collections.Generic.Dictionary]]"),
    (11, "Microsoft.Xna.Framework.Content.ListReader`1[[»System.Nullable`2[[System.Byte],[System.Byte]]]]"),
    (11, "Microsoft.Xna.Framework.Content.ListReader`1[[»System.Collections.Generic.List`2[[System.Byte],[System.Byte]]]]"),
    // Every target name as an argument.
    (0, "Microsoft.Xna.Framework.Content.ListReader`1[[System.Byte]]"),
    (0, "Microsoft.Xna.Framework.Content.ListReader`1[[System.SByte]]"),
    (0, "Microsoft.Xna.Framework.Content.ListReader`1[[System.Int16]]"),
    (0, "Microsoft.Xna.Framework.Content.ListReader`1[[System.UInt16]]"),
    (0, "Microsoft.Xna.Framework.Content.ListReader`1[[System.Int32]]"),
    (0, "Microsoft.Xna.Framework.Content.ListReader`1[[System.UInt32]]"),
    (0, "Microsoft.Xna.Framework.Content.ListReader`1[[System.Int64]]"),
    (0, "Microsoft.Xna.Framework.Content.ListReader`1[[System.UInt64]]"),
    (0, "Microsoft.Xna.Framework.Content.ListReader`1[[System.Single]]"),
    (0, "Microsoft.Xna.Framework.Content.ListReader`1[[System.Double]]"),
    (0, "Microsoft.Xna.Framework.Content.ListReader`1[[System.Boolean]]"),
    (0, "Microsoft.Xna.Framework.Content.ListReader`1[[System.Char]]"),
    (0, "Microsoft.Xna.Framework.Content.ListReader`1[[System.String]]"),
    (0, "Microsoft.Xna.Framework.Content.ListReader`1[[System.Object]]"),
    (0, "Microsoft.Xna.Framework.Content.ListReader`1[[System.TimeSpan]]"),
    (0, "Microsoft.Xna.Framework.Content.ListReader`1[[System.DateTime]]"),
    (0, "Microsoft.Xna.Framework.Content.ListReader`1[[System.Decimal]]"),
    (0, "Microsoft.Xna.Framework.Content.ListReader`1[[Microsoft.Xna.Framework.Vector2]]"),
    (0, "Microsoft.Xna.Framework.Content.ListReader`1[[Microsoft.Xna.Framework.Vector3]]"),
    (0, "Microsoft.Xna.Framework.Content.ListReader`1[[Microsoft.Xna.Framework.Vector4]]"),
    (0, "Microsoft.Xna.Framework.Content.ListReader`1[[Microsoft.Xna.Framework.Matrix]]"),
    (0, "Microsoft.Xna.Framework.Content.ListReader`1[[Microsoft.Xna.Framework.Quaternion]]"),
    (0, "Microsoft.Xna.Framework.Content.ListReader`1[[Microsoft.Xna.Framework.Color]]"),
    (0, "Microsoft.Xna.Framework.Content.ListReader`1[[Microsoft.Xna.Framework.Point]]"),
    (0, "Microsoft.Xna.Framework.Content.ListReader`1[[System.Nullable`1[[System.Byte]]]]"),
    (0, "Microsoft.Xna.Framework.Content.ListReader`1[[System.Collections.Generic.Dictionary`2[[System.Byte],[System.Char]]]]"),
    (0, "Microsoft.Xna.Framework.Content.ListReader`1[[Microsoft.Xna.Framework.Graphics.IndexBuffer]]"),
    (0, "Microsoft.Xna.Framework.Content.ListReader`1[[Microsoft.Xna.Framework.Graphics.VertexDeclaration]]"),
    (0, "Microsoft.Xna.Framework.Content.ListReader`1[[Microsoft.Xna.Framework.Graphics.VertexBuffer]]"),
    (0, "Microsoft.Xna.Framework.Content.ListReader`1[[Microsoft.Xna.Framework.Graphics.Model]]"),
    // No target name is an enum.
    (11, "Microsoft.Xna.Framework.Content.EnumReader`1[[»System.Byte]]"),
    (11, "Microsoft.Xna.Framework.Content.EnumReader`1[[»System.SByte]]"),
    (11, "Microsoft.Xna.Framework.Content.EnumReader`1[[»System.Int16]]"),
    (11, "Microsoft.Xna.Framework.Content.EnumReader`1[[»System.UInt16]]"),
    (11, "Microsoft.Xna.Framework.Content.EnumReader`1[[»System.UInt32]]"),
    (11, "Microsoft.Xna.Framework.Content.EnumReader`1[[»System.Int64]]"),
    (11, "Microsoft.Xna.Framework.Content.EnumReader`1[[»System.UInt64]]"),
    (11, "Microsoft.Xna.Framework.Content.EnumReader`1[[»System.Single]]"),
    (11, "Microsoft.Xna.Framework.Content.EnumReader`1[[»System.Double]]"),
    (11, "Microsoft.Xna.Framework.Content.EnumReader`1[[»System.Boolean]]"),
    (11, "Microsoft.Xna.Framework.Content.EnumReader`1[[»System.Char]]"),
    (11, "Microsoft.Xna.Framework.Content.EnumReader`1[[»System.String]]"),
    (11, "Microsoft.Xna.Framework.Content.EnumReader`1[[»System.TimeSpan]]"),
    (11, "Microsoft.Xna.Framework.Content.EnumReader`1[[»System.DateTime]]"),
    (11, "Microsoft.Xna.Framework.Content.EnumReader`1[[»System.Decimal]]"),
    (11, "Microsoft.Xna.Framework.Content.EnumReader`1[[»Microsoft.Xna.Framework.Vector2]]"),
    (11, "Microsoft.Xna.Framework.Content.EnumReader`1[[»Microsoft.Xna.Framework.Vector3]]"),
    (11, "Microsoft.Xna.Framework.Content.EnumReader`1[[»Microsoft.Xna.Framework.Vector4]]"),
    (11, "Microsoft.Xna.Framework.Content.EnumReader`1[[»Microsoft.Xna.Framework.Matrix]]"),
    (11, "Microsoft.Xna.Framework.Content.EnumReader`1[[»Microsoft.Xna.Framework.Quaternion]]"),
    (11, "Microsoft.Xna.Framework.Content.EnumReader`1[[»Microsoft.Xna.Framework.Color]]"),
    (11, "Microsoft.Xna.Framework.Content.EnumReader`1[[»Microsoft.Xna.Framework.Point]]"),
    (11, "Microsoft.Xna.Framework.Content.EnumReader`1[[»Microsoft.Xna.Framework.Rectangle]]"),
    (11, "Microsoft.Xna.Framework.Content.EnumReader`1[[»Microsoft.Xna.Framework.Graphics.Texture2D]]"),
    (11, "Microsoft.Xna.Framework.Content.EnumReader`1[[»Microsoft.Xna.Framework.Graphics.SpriteFont]]"),
    (11, "Microsoft.Xna.Framework.Content.EnumReader`1[[»Microsoft.Xna.Framework.Graphics.IndexBuffer]]"),
    (11, "Microsoft.Xna.Framework.Content.EnumReader`1[[»Microsoft.Xna.Framework.Graphics.VertexDeclaration]]"),
    (11, "Microsoft.Xna.Framework.Content.EnumReader`1[[»Microsoft.Xna.Framework.Graphics.VertexBuffer]]"),
    (11, "Microsoft.Xna.Framework.Content.EnumReader`1[[»Microsoft.Xna.Framework.Graphics.Model]]"),
    // Every target name as the argument of Nullable.
    (0, "Microsoft.Xna.Framework.Content.NullableReader`1[[System.Byte]]"),
    (0, "Microsoft.Xna.Framework.Content.NullableReader`1[[System.SByte]]"),
    (0, "Microsoft.Xna.Framework.Content.NullableReader`1[[System.Int16]]"),
    (0, "Microsoft.Xna.Framework.Content.NullableReader`1[[System.UInt16]]"),
    (0, "Microsoft.Xna.Framework.Content.NullableReader`1[[System.Int32]]"),
    (0, "Microsoft.Xna.Framework.Content.NullableReader`1[[System.UInt32]]"),
    (0, "Microsoft.Xna.Framework.Content.NullableReader`1[[System.Int64]]"),
    (0, "Microsoft.Xna.Framework.Content.NullableReader`1[[System.UInt64]]"),
    (0, "Microsoft.Xna.Framework.Content.NullableReader`1[[System.Single]]"),
    (0, "Microsoft.Xna.Framework.Content.NullableReader`1[[System.Double]]"),
    (0, "Microsoft.Xna.Framework.Content.NullableReader`1[[System.Boolean]]"),
    (0, "Microsoft.Xna.Framework.Content.NullableReader`1[[System.Char]]"),
    (0, "Microsoft.Xna.Framework.Content.NullableReader`1[[System.TimeSpan]]"),
    (0, "Microsoft.Xna.Framework.Content.NullableReader`1[[System.DateTime]]"),
    (0, "Microsoft.Xna.Framework.Content.NullableReader`1[[System.Decimal]]"),
    (0, "Microsoft.Xna.Framework.Content.NullableReader`1[[Microsoft.Xna.Framework.Vector2]]"),
    (0, "Microsoft.Xna.Framework.Content.NullableReader`1[[Microsoft.Xna.Framework.Vector3]]"),
    (0, "Microsoft.Xna.Framework.Content.NullableReader`1[[Microsoft.Xna.Framework.Vector4]]"),
    (0, "Microsoft.Xna.Framework.Content.NullableReader`1[[Microsoft.Xna.Framework.Matrix]]"),
    (0, "Microsoft.Xna.Framework.Content.NullableReader`1[[Microsoft.Xna.Framework.Color]]"),
    (0, "Microsoft.Xna.Framework.Content.NullableReader`1[[Microsoft.Xna.Framework.Point]]"),
    (0, "Microsoft.Xna.Framework.Content.NullableReader`1[[Microsoft.Xna.Framework.Rectangle]]"),
    (11, "Microsoft.Xna.Framework.Content.NullableReader`1[[»Microsoft.Xna.Framework.Graphics.Texture]]"),
    (11, "Microsoft.Xna.Framework.Content.NullableReader`1[[»Microsoft.Xna.Framework.Graphics.SpriteFont]]"),
    (11, "Microsoft.Xna.Framework.Content.NullableReader`1[[»Microsoft.Xna.Framework.Graphics.IndexBuffer]]"),
    (11, "Microsoft.Xna.Framework.Content.NullableReader`1[[»Microsoft.Xna.Framework.Graphics.VertexDeclaration]]"),
    (11, "Microsoft.Xna.Framework.Content.NullableReader`1[[»Microsoft.Xna.Framework.Graphics.VertexBuffer]]"),
    (11, "Microsoft.Xna.Framework.Content.NullableReader`1[[»Microsoft.Xna.Framework.Graphics.Model]]"),
    (11, "Microsoft.Xna.Framework.Content.NullableReader`1[[»System.Collections.Generic.Dictionary`2[[System.Byte],[System.Char]]]]"),
    // Every reader with its own number of arguments.
    (0, "Microsoft.Xna.Framework.Content.EnumReader`1[[Coach.Door+State_2]]"),
    (0, "Microsoft.Xna.Framework.Content.ArrayReader`1[[System.Int32]]"),
    (0, "Microsoft.Xna.Framework.Content.DictionaryReader`2[[System.Int32],[Microsoft.Xna.Framework.Rectangle]]"),
];

/// A list reader whose name has this many levels, the reader's own being level 1.
pub fn nested(levels: usize) -> String {
    let lists = levels - 2;
    let opening = "System.Collections.Generic.List`1[[".repeat(lists);
    let closing = "]]".repeat(lists);
    format!("Microsoft.Xna.Framework.Content.ListReader`1[[{opening}System.Byte{closing}]]")
}

/// A good name of this many bytes, most of them its tail.
pub fn tailed(length: usize) -> String {
    let name = "Coach.Console.PageReader,";
    format!("{name}{}", "a".repeat(length - name.len()))
}

/// The tables, names at and past the deepest level, and one as long as a name may be.
pub fn all() -> Vec<Judged> {
    let mut names: Vec<Judged> = Vec::new();
    for (number, marked) in TABLE {
        names.push(judged(*number, marked));
    }
    names.extend(parts::all());
    names.push(judged(0, &nested(2)));
    names.push(judged(0, &nested(8)));
    names.push(judged(0, &tailed(1024)));
    names
}

/// Names that are empty or too long: 9.
pub fn of_wrong_length() -> Vec<Judged> {
    let of = |name| Judged {
        number: 9,
        place: 0,
        name,
    };
    vec![of(String::new()), of(tailed(1025))]
}

/// All names, by the files in which the program `reader_names` has them.
pub fn files() -> Vec<(&'static str, Vec<Judged>)> {
    let mut names = all();
    names.extend(of_wrong_length());
    let of = |numbers: &[u32]| {
        let mut names = names.clone();
        names.retain(|judged| numbers.contains(&judged.number));
        names
    };
    vec![
        ("good", of(&[0])),
        ("broken", of(&[33, 34, 35, 36, 37, 38])),
        ("unknown", of(&[11])),
        ("wrong_length", of(&[9])),
    ]
}

/// The lines of such a file.
pub fn lines(names: &[Judged]) -> String {
    names.iter().map(|it| format!("{}\n", it.name)).collect()
}

/// What `reader_names` prints: each file's name, then for every name in it 0, or the refusal's number and its place.
pub fn printed() -> String {
    let mut printed = String::new();
    for (file, names) in files() {
        printed += &format!("{file}\n");
        for Judged { number, place, .. } in names {
            printed += &match number {
                0 => "0\n".to_string(),
                _ => format!("{number} {place}\n"),
            };
        }
    }
    printed
}
