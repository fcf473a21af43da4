//! Kinds of values, each once: its number, its name, its size where all values have one, and what it is in words.

use std::fmt::{self, Display, Formatter};

macro_rules! kinds {
    ($($number:literal $name:ident $($size:literal)?: $words:literal;)*) => {
        /// The kind of a row, by its number.
        ///
        /// ```
        /// use xnb::Kind;
        ///
        /// assert_eq!(Kind::of_number(13), Some(Kind::String));
        /// assert_eq!((Kind::String.number(), Kind::String.name()), (13, "String"));
        /// assert_eq!(Kind::Rectangle.size(), Some(16));
        /// assert_eq!(Kind::ImageLevel.words(), "one level of a texture");
        /// ```
        #[derive(Clone, Copy, Debug, PartialEq, Eq, PartialOrd, Ord, Hash)]
        #[cfg_attr(feature = "serde", derive(serde::Serialize))]
        #[non_exhaustive]
        pub enum Kind {
            $(#[doc = concat!("Kind ", $number, ": ", $words, ".")] $name = $number,)*
        }

        const KINDS: &[Kind] = &[$(Kind::$name),*];

        impl Kind {
            /// The kind of this number; 14 and 31 (Object and Texture) have no rows.
            #[inline]
            pub fn of_number(number: u32) -> Option<Kind> {
                Some(match number {
                    $($number => Kind::$name,)*
                    _ => return None,
                })
            }

            /// The name as the documents have it, in one word.
            pub fn name(self) -> &'static str {
                match self {
                    $(Kind::$name => stringify!($name),)*
                }
            }

            /// What a value of this kind is.
            pub fn words(self) -> &'static str {
                match self {
                    $(Kind::$name => $words,)*
                }
            }

            /// The bytes of a value without its type id, where every value of this kind has as many.
            ///
            /// An enum that is not listed has four, and a listed one what the list says.
            pub fn size(self) -> Option<usize> {
                match self {
                    $(Kind::$name => [$($size)?].first().copied(),)*
                }
            }
        }
    };
}

kinds! {
    0 Null: "an object that is missing";
    1 Byte 1: "a whole number from 0 to 255";
    2 SByte 1: "a whole number from -128 to 127";
    3 Int16 2: "a whole number of two bytes";
    4 UInt16 2: "a whole number of two bytes without a sign";
    5 Int32 4: "a whole number of four bytes";
    6 UInt32 4: "a whole number of four bytes without a sign";
    7 Int64 8: "a whole number of eight bytes";
    8 UInt64 8: "a whole number of eight bytes without a sign";
    9 Single 4: "a floating-point number of four bytes";
    10 Double 8: "a floating-point number of eight bytes";
    11 Boolean 1: "true or false";
    12 Char: "a character of one to three bytes of UTF-8";
    13 String: "a text in UTF-8 behind its number of bytes";
    15 Enum: "a whole number that means a name";
    16 Nullable: "a value that may be missing";
    17 Array: "elements of one type behind their number";
    18 List: "elements of one type behind their number";
    19 Dictionary: "pairs of a key and a value behind their number";
    20 TimeSpan 8: "a length of time in ticks of 100 nanoseconds";
    21 DateTime 8: "a moment in ticks of 100 nanoseconds from the year 1 on, and its zone";
    22 Decimal 16: "a decimal number of up to 28 places behind the point";
    23 Vector2 8: "two Single numbers, x and y";
    24 Vector3 12: "three Single numbers, x, y and z";
    25 Vector4 16: "four Single numbers, x, y, z and w";
    26 Matrix 64: "sixteen Single numbers, row by row";
    27 Quaternion 16: "four Single numbers, x, y, z and w";
    28 Color 4: "red, green, blue and alpha, a byte each";
    29 Point 8: "two Int32 numbers, x and y";
    30 Rectangle 16: "four Int32 numbers, x, y, width and height";
    32 Texture2D: "a picture with its levels";
    33 SpriteFont: "a font: a picture of glyphs and how to set them";
    34 Page: "a page of the console: title, area, picture and next page";
    35 ImageLevel: "one level of a texture";
    36 SharedReference: "a reference to a shared object";
    37 IndexBuffer: "the numbers of vertices, in the order in which they are drawn";
    38 VertexDeclaration: "what a vertex consists of";
    39 VertexBuffer: "vertices and what they consist of";
    40 Model: "bones, and meshes that hang on them";
    41 DataBytes: "the data of an index buffer or of a vertex buffer";
    42 BoneReference: "a reference to a bone of the model";
}

impl Kind {
    /// The number in the documents, which is the first word of a row.
    #[inline]
    pub fn number(self) -> u32 {
        self as u32
    }

    /// Every kind, by rising number.
    pub fn all() -> impl ExactSizeIterator<Item = Kind> {
        KINDS.iter().copied()
    }
}

impl Display for Kind {
    fn fmt(&self, out: &mut Formatter) -> fmt::Result {
        out.pad(self.name())
    }
}

#[cfg(test)]
mod tests {
    use super::*;

    #[test]
    fn numbers_and_kinds_match() {
        for number in 0..=43 {
            let known = number <= 42 && number != 14 && number != 31;
            let kind = Kind::of_number(number);
            assert_eq!(kind.map(Kind::number), known.then_some(number));
        }
        assert_eq!(Kind::of_number(u32::MAX), None);
        assert_eq!(Kind::Int32.to_string(), "Int32");
        assert_eq!(format!("{:>6}", Kind::List), "  List");
        assert!(Kind::all().map(Kind::number).is_sorted());
        assert_eq!(Kind::all().len(), 41);
    }

    /// The sizes of fixed values, by kind number; none where a value has its own size.
    #[test]
    fn sizes_are_those_of_document_01() {
        let sizes = [
            0, 1, 1, 2, 2, 4, 4, 8, 8, 4, 8, 1, 0, 0, 0, 0, 0, 0, 0, 0, 8, 8, 16, 8, 12, 16, 64,
            16, 4, 8, 16,
        ];
        for kind in Kind::all() {
            let size = sizes.get(kind.number() as usize).copied().unwrap_or(0);
            assert_eq!(kind.size(), Some(size).filter(|size| *size > 0), "{kind}");
        }
    }
}
