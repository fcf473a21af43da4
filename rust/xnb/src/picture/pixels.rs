//! Pixels one after the other.

use super::SurfaceFormat;
use crate::memory::{with_room, OutOfMemory};
use crate::numbers::{numbers, Number};

/// Red, green, blue and alpha.
type Pixel = [u8; 4];

/// The pixels of a format without blocks, line by line.
pub fn pixels(data: &[u8], format: SurfaceFormat) -> Result<Vec<u8>, OutOfMemory> {
    let stored = data.chunks_exact(format.bytes());
    let mut out = with_room(4 * stored.len())?;
    out.extend(stored.flat_map(|bytes| pixel(format, bytes)));
    Ok(out)
}

fn pixel(format: SurfaceFormat, bytes: &[u8]) -> Pixel {
    use SurfaceFormat::*;
    match format {
        Color => numbers(bytes),
        Bgr565 => {
            let packed = u16::of_bytes(bytes);
            [five(packed >> 11), six(packed >> 5), five(packed), 255]
        }
        Bgra5551 => {
            let packed = u16::of_bytes(bytes);
            let alpha = if packed >> 15 == 1 { 255 } else { 0 };
            [five(packed >> 10), five(packed >> 5), five(packed), alpha]
        }
        Bgra4444 => {
            let packed = u16::of_bytes(bytes);
            [8, 4, 0, 12].map(|shift| (packed >> shift & 0xF) as u8 * 17)
        }
        NormalizedByte2 => {
            let [x, y] = numbers(bytes).map(normalized);
            [x, y, 0, 255]
        }
        NormalizedByte4 => numbers(bytes).map(normalized),
        Rgba1010102 => {
            let packed = u32::of_bytes(bytes);
            let colour = |shift: u32| scaled(packed >> shift & 0x3FF, 0x3FF);
            [colour(0), colour(10), colour(20), (packed >> 30) as u8 * 85]
        }
        Rg32 => {
            let [red, green] = numbers(bytes).map(sixteen);
            [red, green, 0, 255]
        }
        Rgba64 => numbers(bytes).map(sixteen),
        Alpha8 => [255, 255, 255, bytes[0]],
        Single => grey(unit(f32::of_bytes(bytes))),
        Vector2 => {
            let [x, y] = numbers(bytes).map(unit);
            [x, y, 0, 255]
        }
        Vector4 => numbers(bytes).map(unit),
        HalfSingle => grey(unit(half(u16::of_bytes(bytes)))),
        HalfVector2 => {
            let [x, y] = numbers(bytes).map(|it| unit(half(it)));
            [x, y, 0, 255]
        }
        HalfVector4 => numbers(bytes).map(|it| unit(half(it))),
        Dxt1 | Dxt3 | Dxt5 => unreachable!("{format} is in blocks"),
    }
}

/// The lowest five bits as eight: the highest three of them fill the gap.
pub fn five(bits: u16) -> u8 {
    let bits = (bits & 0x1F) as u8;
    bits << 3 | bits >> 2
}

/// The lowest six bits as eight.
pub fn six(bits: u16) -> u8 {
    let bits = (bits & 0x3F) as u8;
    bits << 2 | bits >> 4
}

/// A number up to the most, scaled to 255 and rounded.
fn scaled(number: u32, most: u32) -> u8 {
    ((number * 255 + most / 2) / most) as u8
}

fn sixteen(number: u16) -> u8 {
    scaled(u32::from(number), 0xFFFF)
}

/// -127 to 127 scaled to 0 to 255; -128 is -127.
fn normalized(number: i8) -> u8 {
    scaled((i32::from(number.max(-127)) + 127) as u32, 254)
}

/// 0 to 1 scaled to 0 to 255, others cut off; what is no number is 0.
fn unit(number: f32) -> u8 {
    // A cast to a byte cuts off, and makes 0 of what is no number.
    (number * 255.0).round() as u8
}

fn grey(light: u8) -> Pixel {
    [light, light, light, 255]
}

/// A number of two bytes: a sign, five bits of exponent and ten of fraction.
pub fn half(bits: u16) -> f32 {
    let (exponent, fraction) = (bits >> 10 & 0x1F, f32::from(bits & 0x3FF));
    let size = match exponent {
        0 => fraction * (-24_f32).exp2(),
        31 if fraction == 0.0 => f32::INFINITY,
        31 => f32::NAN,
        _ => (1024.0 + fraction) * (f32::from(exponent) - 25.0).exp2(),
    };
    if bits >> 15 == 1 {
        -size
    } else {
        size
    }
}

#[cfg(test)]
mod tests {
    use super::*;
    use SurfaceFormat::*;

    /// One pixel in its bytes as the file has them, lowest first.
    fn shown(format: SurfaceFormat, bytes: &[u8]) -> Pixel {
        let pixels = pixels(bytes, format).expect("memory");
        pixels[..].try_into().expect("one pixel")
    }

    #[test]
    fn colours_of_up_to_eight_bits_are_as_they_are() {
        assert_eq!(shown(Color, &[1, 2, 3, 4]), [1, 2, 3, 4]);
        // Red in the highest five bits, blue in the lowest: F81F is red and blue, 07E0 is green.
        assert_eq!(shown(Bgr565, &[0x1F, 0xF8]), [255, 0, 255, 255]);
        assert_eq!(shown(Bgr565, &[0xE0, 0x07]), [0, 255, 0, 255]);
        // 10000 in five bits is 10000100 in eight, 100000 in six is 10000010.
        assert_eq!(shown(Bgr565, &[0x10, 0x84]), [132, 130, 132, 255]);
        // Alpha in the highest bit, then red, green and blue.
        assert_eq!(shown(Bgra5551, &[0x00, 0xFC]), [255, 0, 0, 255]);
        assert_eq!(shown(Bgra5551, &[0xE0, 0x03]), [0, 255, 0, 0]);
        assert_eq!(shown(Bgra5551, &[0x1F, 0x80]), [0, 0, 255, 255]);
        // Alpha 1, red 2, green 3, blue 4.
        assert_eq!(shown(Bgra4444, &[0x34, 0x12]), [34, 51, 68, 17]);
        assert_eq!(shown(Alpha8, &[7]), [255, 255, 255, 7]);
    }

    #[test]
    fn colours_of_more_bits_are_scaled() {
        // Red in the lowest ten bits; alpha in the highest two.
        assert_eq!(
            shown(Rgba1010102, &0x0000_03FF_u32.to_le_bytes()),
            [255, 0, 0, 0]
        );
        assert_eq!(
            shown(Rgba1010102, &0x400F_FC00_u32.to_le_bytes()),
            [0, 255, 0, 85]
        );
        assert_eq!(
            shown(Rgba1010102, &0xE000_0000_u32.to_le_bytes()),
            [0, 0, 128, 255]
        );
        assert_eq!(shown(Rg32, &[0xFF, 0xFF, 0x00, 0x80]), [255, 128, 0, 255]);
        let rgba64 = [0x00, 0x00, 0xFF, 0xFF, 0x80, 0x00, 0x81, 0x00];
        assert_eq!(shown(Rgba64, &rgba64), [0, 255, 0, 1]);
    }

    #[test]
    fn directions_are_scaled_from_their_middle() {
        assert_eq!(shown(NormalizedByte2, &[0x7F, 0x81]), [255, 0, 0, 255]);
        assert_eq!(
            shown(NormalizedByte4, &[0x80, 0x00, 0x01, 0xFF]),
            [0, 128, 129, 126]
        );
    }

    #[test]
    fn floating_numbers_are_cut_off_at_0_and_1() {
        let bytes = |numbers: &[f32]| -> Vec<u8> {
            numbers.iter().flat_map(|it| it.to_le_bytes()).collect()
        };
        assert_eq!(shown(Single, &bytes(&[0.5])), [128, 128, 128, 255]);
        assert_eq!(shown(Vector2, &bytes(&[2.0, -1.0])), [255, 0, 0, 255]);
        let numbers = bytes(&[f32::NAN, f32::INFINITY, 0.2, 1.0]);
        assert_eq!(shown(Vector4, &numbers), [0, 255, 51, 255]);
        // 3800 is 0.5, 3C00 is 1, 4000 is 2, B800 is -0.5, 7C00 is infinite.
        assert_eq!(shown(HalfSingle, &[0x00, 0x38]), [128, 128, 128, 255]);
        assert_eq!(
            shown(HalfVector2, &[0x00, 0x3C, 0x00, 0xB8]),
            [255, 0, 0, 255]
        );
        let halves = [0x00, 0x40, 0x00, 0x7C, 0x00, 0x34, 0x01, 0x7C];
        assert_eq!(shown(HalfVector4, &halves), [255, 255, 64, 0]);
    }

    #[test]
    fn numbers_of_two_bytes_are_those_of_ieee_754() {
        assert_eq!(half(0x0001), 2_f32.powi(-24));
        assert_eq!(half(0x03FF), 1023.0 * 2_f32.powi(-24));
        assert_eq!(half(0x0400), 2_f32.powi(-14));
        assert_eq!(half(0x7BFF), 65_504.0);
        assert_eq!(half(0xC000), -2.0);
        assert_eq!(half(0x8000).to_bits(), (-0.0_f32).to_bits());
        assert_eq!(half(0xFC00), f32::NEG_INFINITY);
        assert!(half(0x7C01).is_nan());
    }
}
