//! A place in the file, and the numbers that are read there.

use crate::refusal::{Refusal, BROKEN_NUMBER, PAST_END};

/// A seven-bit number that is longer than it must be.
pub struct Padded {
    pub at: u32,
    pub width: u32,
    pub value: u32,
}

/// A place in the file; `RECORD` says whether padded numbers are kept.
///
/// Whoever refuses leaves the refusal here and answers nothing, so that every answer fits into a register.
pub struct Cursor<'f, const RECORD: bool> {
    pub file: &'f [u8],
    pub at: usize,
    /// How many bytes the numbers so far have more than their shortest forms.
    pub padding: u32,
    pub padded: Vec<Padded>,
    pub refusal: Refusal,
}

impl<'f, const RECORD: bool> Cursor<'f, RECORD> {
    pub fn new(file: &'f [u8], at: usize) -> Self {
        let refusal = Refusal {
            number: 0,
            place: 0,
        };
        Cursor {
            file,
            at,
            padding: 0,
            padded: Vec::new(),
            refusal,
        }
    }

    #[cold]
    #[inline(never)]
    pub fn refuse<T>(&mut self, number: u32, place: usize) -> Option<T> {
        self.refusal = Refusal { number, place };
        None
    }

    /// How many bytes are left.
    #[inline(always)]
    pub fn left(&self) -> usize {
        self.file.len() - self.at
    }

    /// A seven-bit number.
    #[inline(always)]
    pub fn seven(&mut self) -> Option<u32> {
        match self.file.get(self.at) {
            Some(&byte) if byte < 0x80 => {
                self.at += 1;
                Some(u32::from(byte))
            }
            _ => self.long_seven(),
        }
    }

    /// A seven-bit number of more than one byte, or a broken one.
    #[inline(never)]
    fn long_seven(&mut self) -> Option<u32> {
        let start = self.at;
        let mut value = 0;
        for i in 0..5 {
            let Some(&byte) = self.file.get(start + i) else {
                return self.refuse(PAST_END, start);
            };
            if i == 4 && byte > 0x0F {
                break;
            }
            value |= u32::from(byte & 0x7F) << (7 * i);
            if byte < 0x80 {
                let width = i as u32 + 1;
                self.at += i + 1;
                self.count_padding(start, width, value);
                return Some(value);
            }
        }
        self.refuse(BROKEN_NUMBER, start)
    }

    #[inline(always)]
    fn count_padding(&mut self, start: usize, width: u32, value: u32) {
        let shortest = (38 - (value | 1).leading_zeros()) / 7;
        if RECORD && width > shortest {
            let at = start as u32;
            self.padded.push(Padded { at, width, value });
        }
        self.padding += width - shortest;
    }

    /// A number of four bytes.
    #[inline(always)]
    pub fn number(&mut self) -> Option<u32> {
        match self.file[self.at..].first_chunk() {
            Some(bytes) => {
                self.at += 4;
                Some(u32::from_le_bytes(*bytes))
            }
            None => self.refuse(PAST_END, self.at),
        }
    }
}
