//! Surface formats, each once: its code, its name, its bytes, and how it becomes red, green, blue and alpha.

use std::fmt::{self, Display, Formatter};

macro_rules! formats {
    ($($code:literal $name:ident $bytes:literal $(: $made:literal)?;)*) => {
        /// How the pixels of a texture are stored, by its code.
        ///
        /// ```
        /// use xnb::SurfaceFormat;
        ///
        /// let format = SurfaceFormat::of_code(12).expect("a listed code");
        /// assert_eq!((format.name(), format.bytes()), ("Alpha8", 1));
        /// assert_eq!(format.made(), Some("alpha as it is, white"));
        /// assert_eq!(SurfaceFormat::Color.made(), None);
        /// ```
        #[derive(Clone, Copy, Debug, PartialEq, Eq, PartialOrd, Ord, Hash)]
        #[cfg_attr(feature = "serde", derive(serde::Serialize))]
        #[non_exhaustive]
        pub enum SurfaceFormat {
            $(#[doc = concat!("Format ", $code, ".")] $name = $code,)*
        }

        impl SurfaceFormat {
            /// The format of this code; 19 (HdrBlendable) is refused by the loader.
            pub fn of_code(code: u32) -> Option<SurfaceFormat> {
                Some(match code {
                    $($code => SurfaceFormat::$name,)*
                    _ => return None,
                })
            }

            /// The name in Microsoft's document of the format.
            pub fn name(self) -> &'static str {
                match self {
                    $(SurfaceFormat::$name => stringify!($name),)*
                }
            }

            /// The bytes of a pixel, or of a block of four by four pixels.
            pub fn bytes(self) -> usize {
                match self {
                    $(SurfaceFormat::$name => $bytes,)*
                }
            }

            /// What [`rgba8`](crate::Level::rgba8) does where the pixels are not just red, green, blue and alpha in up to
            /// eight bits.
            pub fn made(self) -> Option<&'static str> {
                match self {
                    $(SurfaceFormat::$name => [$($made)?].first().copied(),)*
                }
            }
        }
    };
}

formats! {
    0 Color 4;
    1 Bgr565 2;
    2 Bgra5551 2;
    3 Bgra4444 2;
    4 Dxt1 8;
    5 Dxt3 16;
    6 Dxt5 16;
    7 NormalizedByte2 2: "x and y as red and green, -1 to 1 scaled to 0 to 255";
    8 NormalizedByte4 4: "x, y, z and w as red, green, blue and alpha, -1 to 1 scaled to 0 to 255";
    9 Rgba1010102 4: "10 bits of a colour scaled to 8, 2 bits of alpha";
    10 Rg32 4: "red and green, 16 bits scaled to 8";
    11 Rgba64 8: "16 bits scaled to 8";
    12 Alpha8 1: "alpha as it is, white";
    13 Single 4: "the number as grey, 0 to 1 scaled to 0 to 255, others cut off";
    14 Vector2 8: "x and y as red and green, 0 to 1 scaled to 0 to 255, others cut off";
    15 Vector4 16: "x, y, z and w as red, green, blue and alpha, 0 to 1 scaled to 0 to 255, others cut off";
    16 HalfSingle 2: "the number as grey, 0 to 1 scaled to 0 to 255, others cut off";
    17 HalfVector2 4: "x and y as red and green, 0 to 1 scaled to 0 to 255, others cut off";
    18 HalfVector4 8: "x, y, z and w as red, green, blue and alpha, 0 to 1 scaled to 0 to 255, others cut off";
}

impl SurfaceFormat {
    /// The code in the file.
    pub fn code(self) -> u32 {
        self as u32
    }

    /// Whether pixels are stored in blocks of four by four.
    pub fn is_in_blocks(self) -> bool {
        matches!(
            self,
            SurfaceFormat::Dxt1 | SurfaceFormat::Dxt3 | SurfaceFormat::Dxt5
        )
    }
}

impl Display for SurfaceFormat {
    fn fmt(&self, out: &mut Formatter) -> fmt::Result {
        out.pad(self.name())
    }
}

#[cfg(test)]
mod tests {
    use super::*;

    /// The bytes of a pixel for formats 0 to 3 and 7 to 18, of a block for 4 to 6.
    #[test]
    fn codes_and_bytes_are_those_of_document_01() {
        let bytes = [4, 2, 2, 2, 8, 16, 16, 2, 4, 4, 4, 8, 1, 4, 8, 16, 2, 4, 8];
        for (code, bytes) in (0..).zip(bytes) {
            let format = SurfaceFormat::of_code(code).expect("a listed code");
            assert_eq!((format.code(), format.bytes()), (code, bytes), "{format}");
            assert_eq!(format.is_in_blocks(), (4..=6).contains(&code), "{format}");
        }
        assert_eq!(SurfaceFormat::of_code(19), None);
        assert_eq!(
            SurfaceFormat::of_code(9).map(SurfaceFormat::name),
            Some("Rgba1010102")
        );
    }
}
