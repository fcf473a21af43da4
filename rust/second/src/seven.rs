//! Seven-bit numbers.

use crate::refusal::{BROKEN_NUMBER, PAST_END};

/// A seven-bit number that was read.
#[derive(Clone, Copy, Debug, PartialEq, Eq)]
pub struct Seven {
    pub value: u32,
    /// How many bytes it takes in the file.
    pub width: usize,
    /// How many of them are more than its shortest form has.
    pub padding: usize,
}

impl Seven {
    fn new(value: u32, width: usize) -> Seven {
        let padding = width - shortest_width(value);
        Seven {
            value,
            width,
            padding,
        }
    }
}

/// Reads the number at the start of the bytes, or gives the refusal's number.
pub fn read_seven(bytes: &[u8]) -> Result<Seven, u32> {
    let mut value = 0;
    for index in 0..4 {
        let byte = *bytes.get(index).ok_or(PAST_END)?;
        value |= u32::from(byte & 0x7F) << (7 * index);
        if byte & 0x80 == 0 {
            return Ok(Seven::new(value, index + 1));
        }
    }
    // The fifth byte has only four bits left to give.
    let fifth = *bytes.get(4).ok_or(PAST_END)?;
    if fifth > 0x0F {
        return Err(BROKEN_NUMBER);
    }
    value |= u32::from(fifth) << 28;
    Ok(Seven::new(value, 5))
}

/// How many bytes the shortest form of a number has.
fn shortest_width(number: u32) -> usize {
    match number {
        0..=0x7F => 1,
        0x80..=0x3FFF => 2,
        0x4000..=0x1F_FFFF => 3,
        0x20_0000..=0xFFF_FFFF => 4,
        0x1000_0000.. => 5,
    }
}

/// The shortest bytes of a number.
pub fn shortest_seven(number: u32) -> Vec<u8> {
    let mut bytes = Vec::new();
    let mut rest = number;
    while rest >= 0x80 {
        bytes.push((rest & 0x7F) as u8 | 0x80);
        rest >>= 7;
    }
    bytes.push(rest as u8);
    bytes
}
