//! Pixels in blocks of four by four: Dxt1, Dxt3 and Dxt5.
//!
//! A block has two colours of 16 bits, first and second, and two bits for each pixel, which say what it is made of. The
//! blocks of Dxt3 and Dxt5 begin with eight bytes of alpha. Shares are rounded down, as most decoders do.

use super::pixels::{five, six};
use crate::memory::{zeros, OutOfMemory};
use crate::numbers::{unsigned, Number};

/// Red, green, blue and alpha.
type Pixel = [u8; 4];
/// The pixels of a block, line by line.
type Block = [Pixel; 16];

const SIDE: usize = 4;
const PIXELS: usize = SIDE * SIDE;

/// The pixels of a picture of this width and height, line by line.
///
/// Pixels of a block that are past a side are left out.
pub fn pixels<const BYTES: usize>(
    data: &[u8],
    (width, height): (usize, usize),
    block: fn(&[u8; BYTES]) -> Block,
) -> Result<Vec<u8>, OutOfMemory> {
    let mut out = zeros(4 * width * height)?;
    let (blocks, _) = data.as_chunks();
    let lines = (0..height).step_by(SIDE);
    let places = lines.flat_map(|top| (0..width).step_by(SIDE).map(move |left| (left, top)));
    for ((left, top), bytes) in places.zip(blocks) {
        let block = block(bytes);
        let columns = SIDE.min(width - left);
        for (y, line) in (top..height).zip(block.as_chunks::<SIDE>().0) {
            let start = 4 * (y * width + left);
            out[start..start + 4 * columns].copy_from_slice(line[..columns].as_flattened());
        }
    }
    Ok(out)
}

/// Eight bytes of colours, in which the order of the two says whether there are four colours or three and nothing.
pub fn dxt1(bytes: &[u8; 8]) -> Block {
    let (first, second) = (u16::of_bytes(&bytes[..2]), u16::of_bytes(&bytes[2..4]));
    colours(bytes, first > second)
}

/// Four bits of alpha for each pixel, then colours.
pub fn dxt3(bytes: &[u8; 16]) -> Block {
    let alphas = unsigned(&bytes[..8]);
    let alpha = |pixel: usize| (alphas >> (4 * pixel) & 0xF) as u8 * 17;
    with_alpha(bytes, alpha)
}

/// Two alphas and three bits for each pixel, which say what its own is made of, then colours.
pub fn dxt5(bytes: &[u8; 16]) -> Block {
    let alphas = alphas(bytes[0], bytes[1]);
    let codes = unsigned(&bytes[2..8]);
    with_alpha(bytes, |pixel| alphas[(codes >> (3 * pixel) & 7) as usize])
}

/// The alphas by code: the two of the block, and the steps between them.
fn alphas(first: u8, second: u8) -> [u8; 8] {
    let share = |of_second: u32, steps: u32| {
        let sum = (steps - of_second) * u32::from(first) + of_second * u32::from(second);
        (sum / steps) as u8
    };
    if first > second {
        let between = |step| share(step, 7);
        let [a, b, c, d, e, f] = [1, 2, 3, 4, 5, 6].map(between);
        [first, second, a, b, c, d, e, f]
    } else {
        let [a, b, c, d] = [1, 2, 3, 4].map(|step| share(step, 5));
        [first, second, a, b, c, d, 0, 255]
    }
}

/// The colours in the last eight bytes, always four of them, with an alpha for each pixel.
fn with_alpha(bytes: &[u8; 16], alpha: impl Fn(usize) -> u8) -> Block {
    let colours_of = bytes.last_chunk().expect("the last eight bytes");
    let mut block = colours(colours_of, true);
    for (number, pixel) in block.iter_mut().enumerate() {
        pixel[3] = alpha(number);
    }
    block
}

/// The pixels of two colours and the steps between them: two steps, or one and a pixel of nothing.
fn colours(bytes: &[u8; 8], four: bool) -> Block {
    let first = opaque(u16::of_bytes(&bytes[..2]));
    let second = opaque(u16::of_bytes(&bytes[2..4]));
    let colours = if four {
        [
            first,
            second,
            mixed(first, second, 2, 1),
            mixed(first, second, 1, 2),
        ]
    } else {
        [first, second, mixed(first, second, 1, 1), [0; 4]]
    };
    let codes = unsigned(&bytes[4..]);
    std::array::from_fn::<_, PIXELS, _>(|pixel| colours[(codes >> (2 * pixel) & 3) as usize])
}

/// So many shares of one and of the other.
fn mixed(one: Pixel, other: Pixel, ones: u32, others: u32) -> Pixel {
    std::array::from_fn(|channel| {
        let sum = ones * u32::from(one[channel]) + others * u32::from(other[channel]);
        (sum / (ones + others)) as u8
    })
}

/// Five bits of red, six of green and five of blue.
fn opaque(colour: u16) -> Pixel {
    [five(colour >> 11), six(colour >> 5), five(colour), 255]
}

#[cfg(test)]
mod tests {
    use super::*;

    const RED: Pixel = [255, 0, 0, 255];
    const BLUE: Pixel = [0, 0, 255, 255];

    /// Red (F800) and blue (001F); the first line has the codes 0, 1, 2 and 3.
    #[test]
    fn dxt1_with_a_larger_first_colour_has_four_colours() {
        let block = dxt1(&[0x00, 0xF8, 0x1F, 0x00, 0b11_10_01_00, 0, 0, 0x55]);
        assert_eq!(
            block[..4],
            [RED, BLUE, [170, 0, 85, 255], [85, 0, 170, 255]]
        );
        assert_eq!(block[4..12], [RED; 8]);
        assert_eq!(block[12..], [BLUE; 4]);
    }

    #[test]
    fn dxt1_with_another_order_has_three_colours_and_nothing() {
        let block = dxt1(&[0x1F, 0x00, 0x00, 0xF8, 0b11_10_01_00, 0, 0, 0]);
        assert_eq!(block[..4], [BLUE, RED, [127, 0, 127, 255], [0; 4]]);
        // Two equal colours are of that order too.
        let block = dxt1(&[0x1F, 0x00, 0x1F, 0x00, 0xFF, 0, 0, 0]);
        assert_eq!(block[..5], [[0; 4], [0; 4], [0; 4], [0; 4], BLUE]);
    }

    /// Alpha 0 to F for the pixels in turn, and four colours whatever their order.
    #[test]
    fn dxt3_has_four_bits_of_alpha() {
        let alphas = [0x10, 0x32, 0x54, 0x76, 0x98, 0xBA, 0xDC, 0xFE];
        let colours = [0x1F, 0x00, 0x00, 0xF8, 0b11_10_01_00, 0, 0, 0];
        let bytes: Vec<u8> = [alphas, colours].concat();
        let block = dxt3(bytes[..].try_into().expect("16 bytes"));
        assert_eq!(block[2], [85, 0, 170, 34]);
        assert_eq!(block[3], [170, 0, 85, 51]);
        let alphas: Vec<u8> = block.iter().map(|pixel| pixel[3]).collect();
        let expected: Vec<u8> = (0..16).map(|alpha| 17 * alpha).collect();
        assert_eq!(alphas, expected);
    }

    /// Codes 0 to 7 for the first eight pixels: 11 111 110 101 100 011 010 001 000 from the lowest bit on.
    #[test]
    fn dxt5_has_steps_of_alpha() {
        let alphas = |first, second| -> Vec<u8> {
            let alpha = [first, second, 0x88, 0xC6, 0xFA, 0, 0, 0];
            let bytes: Vec<u8> = [alpha, [0; 8]].concat();
            let block = dxt5(bytes[..].try_into().expect("16 bytes"));
            block[..8].iter().map(|pixel| pixel[3]).collect()
        };
        assert_eq!(alphas(210, 0), [210, 0, 180, 150, 120, 90, 60, 30]);
        assert_eq!(alphas(0, 210), [0, 210, 42, 84, 126, 168, 0, 255]);
        assert_eq!(alphas(255, 254), [255, 254, 254, 254, 254, 254, 254, 254]);
    }

    /// A side that no file has: the memory is asked for before a pixel is looked at.
    #[test]
    fn memory_that_is_refused_is_an_error() {
        let bytes = 1 << 60;
        let refused = pixels(&[], (1 << 30, 1 << 28), dxt1);
        assert_eq!(refused, Err(OutOfMemory { bytes }));
    }

    /// Five by three pixels take two blocks; of the second only its first column counts.
    #[test]
    fn pixels_past_a_side_are_left_out() {
        let red = [0x00, 0xF8, 0x00, 0x00, 0, 0, 0, 0];
        let blue = [0x1F, 0x00, 0x00, 0x00, 0, 0, 0, 0];
        let picture = pixels(&[red, blue].concat(), (5, 3), dxt1);
        let line = [RED, RED, RED, RED, BLUE].concat();
        assert_eq!(picture, Ok(line.repeat(3)));
    }
}
