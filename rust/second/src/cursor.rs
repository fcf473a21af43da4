//! Taking fields from a file in order.

use crate::refusal::{demand, refuse, Refusal, PAST_END};
use crate::seven::{read_seven, Seven};

/// A file and the place of its next field.
pub struct Cursor<'f> {
    pub file: &'f [u8],
    pub at: usize,
    /// Every seven-bit number met so far, with its place.
    pub sevens: Vec<(usize, Seven)>,
    /// Their padding in all.
    pub padding: usize,
}

impl<'f> Cursor<'f> {
    pub fn new(file: &'f [u8], at: usize) -> Cursor<'f> {
        Cursor {
            file,
            at,
            sevens: Vec::new(),
            padding: 0,
        }
    }

    /// How many bytes are left.
    pub fn left(&self) -> usize {
        self.file.len() - self.at
    }

    /// Takes a field of a known size.
    pub fn take(&mut self, size: usize) -> Result<&'f [u8], Refusal> {
        self.take_placed(size, self.at)
    }

    /// Takes bytes whose end is judged at an earlier place, their count or size field.
    pub fn take_placed(&mut self, size: usize, place: usize) -> Result<&'f [u8], Refusal> {
        demand(size <= self.left(), PAST_END, place)?;
        let start = self.at;
        self.at += size;
        Ok(&self.file[start..self.at])
    }

    /// Takes a field of four bytes as a number.
    pub fn take_u32(&mut self) -> Result<u32, Refusal> {
        let bytes = self.take(4)?;
        Ok(u32::from_le_bytes([bytes[0], bytes[1], bytes[2], bytes[3]]))
    }

    /// Takes a seven-bit number.
    pub fn take_seven(&mut self) -> Result<u32, Refusal> {
        match read_seven(&self.file[self.at..]) {
            Ok(seven) => {
                self.sevens.push((self.at, seven));
                self.padding += seven.padding;
                self.at += seven.width;
                Ok(seven.value)
            }
            Err(number) => refuse(number, self.at),
        }
    }
}
