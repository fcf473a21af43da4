//! The codes for the elements of a vertex, each once: its number, its name and what it is.

use std::fmt::{self, Display, Formatter};

macro_rules! codes {
    ($(#[$about:meta])* $codes:ident { $($code:literal $name:ident: $words:literal;)* }) => {
        $(#[$about])*
        #[derive(Clone, Copy, Debug, PartialEq, Eq, PartialOrd, Ord, Hash)]
        #[cfg_attr(feature = "serde", derive(serde::Serialize))]
        pub enum $codes {
            $(#[doc = concat!("Code ", $code, ": ", $words, ".")] $name = $code,)*
        }

        impl $codes {
            /// The number in the file.
            pub fn code(self) -> i32 {
                self as i32
            }

            /// What this number means; a load takes no other.
            pub fn of_code(code: i32) -> Option<$codes> {
                Some(match code {
                    $($code => $codes::$name,)*
                    _ => return None,
                })
            }

            /// The name in Microsoft's document of the format.
            pub fn name(self) -> &'static str {
                match self {
                    $($codes::$name => stringify!($name),)*
                }
            }
        }

        impl Display for $codes {
            fn fmt(&self, out: &mut Formatter) -> fmt::Result {
                out.pad(self.name())
            }
        }
    };
}

codes! {
    /// How an element of a vertex is stored, by its code.
    ElementFormat {
        0 Single: "a Single number";
        1 Vector2: "two Single numbers";
        2 Vector3: "three Single numbers";
        3 Vector4: "four Single numbers";
        4 Color: "four bytes of a colour";
        5 Byte4: "four bytes";
        6 Short2: "two numbers of two bytes";
        7 Short4: "four numbers of two bytes";
        8 NormalizedShort2: "two numbers of two bytes that mean -1 to 1";
        9 NormalizedShort4: "four numbers of two bytes that mean -1 to 1";
        10 HalfVector2: "two floating-point numbers of two bytes";
        11 HalfVector4: "four floating-point numbers of two bytes";
    }
}

impl ElementFormat {
    /// The number of its bytes.
    pub fn bytes(self) -> usize {
        match self {
            ElementFormat::Single => 4,
            ElementFormat::Vector2 => 8,
            ElementFormat::Vector3 => 12,
            ElementFormat::Vector4 => 16,
            ElementFormat::Color | ElementFormat::Byte4 => 4,
            ElementFormat::Short2 | ElementFormat::NormalizedShort2 => 4,
            ElementFormat::Short4 | ElementFormat::NormalizedShort4 => 8,
            ElementFormat::HalfVector2 => 4,
            ElementFormat::HalfVector4 => 8,
        }
    }
}

codes! {
    /// What an element of a vertex is for, by its code.
    ElementUsage {
        0 Position: "where the vertex is";
        1 Color: "its colour";
        2 TextureCoordinate: "its place in a texture";
        3 Normal: "the direction away from the surface";
        4 Binormal: "a direction along the surface";
        5 Tangent: "the other direction along the surface";
        6 BlendIndices: "the bones that move it";
        7 BlendWeight: "how much each bone moves it";
        8 Depth: "its depth";
        9 Fog: "its fog";
        10 PointSize: "the size of its point";
        11 Sample: "a sample";
        12 TessellateFactor: "how finely it is divided";
    }
}

#[cfg(test)]
mod tests {
    use super::*;

    #[test]
    fn codes_are_those_of_document_000() {
        for code in -2..20 {
            let format = ElementFormat::of_code(code);
            assert_eq!(
                format.map(ElementFormat::code),
                (0..=11).contains(&code).then_some(code)
            );
            let usage = ElementUsage::of_code(code);
            assert_eq!(
                usage.map(ElementUsage::code),
                (0..=12).contains(&code).then_some(code)
            );
        }
        assert_eq!(
            ElementFormat::of_code(2).map(|it| it.to_string()),
            Some("Vector3".into())
        );
        assert_eq!(
            ElementUsage::of_code(8).map(|it| it.to_string()),
            Some("Depth".into())
        );
    }
}
