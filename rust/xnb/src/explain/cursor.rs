//! Going from field to field towards the place of a refusal.

use super::names::Wrong;
use super::{Explanation, ReaderName};
use crate::numbers::unsigned;
use crate::refusal::{Refusal, Refused};
use std::fmt::Display;

/// Why the way ends.
pub enum Stop<'f> {
    /// The field at the place shows the fault.
    Found(Explanation<'f>),
    /// The bytes lead elsewhere.
    Lost,
}

pub type Step<'f, T> = Result<T, Stop<'f>>;

/// A file, the place of its next field, and the refusal that is looked for.
pub struct Cursor<'f> {
    pub file: &'f [u8],
    pub at: usize,
    refused: Refused,
}

impl<'f> Cursor<'f> {
    pub fn new(file: &'f [u8], refused: Refused) -> Cursor<'f> {
        let at = 0;
        Cursor { file, at, refused }
    }

    /// How many bytes are left.
    pub fn left(&self) -> usize {
        self.file.len() - self.at
    }

    /// Ends the way if the refusal is this one, at this place, and the words for it are found.
    pub fn meet(
        &self,
        refusal: Refusal,
        place: usize,
        words: impl FnOnce() -> Option<String>,
    ) -> Step<'f, ()> {
        self.meet_reader(refusal, place, None, words)
    }

    /// As `meet`, for a fault that a reader has to do with.
    pub fn meet_reader(
        &self,
        refusal: Refusal,
        place: usize,
        reader: Option<ReaderName<'f>>,
        words: impl FnOnce() -> Option<String>,
    ) -> Step<'f, ()> {
        if !self.is_met(refusal, place) {
            return Ok(());
        }
        match words() {
            Some(found) => Err(Stop::Found(Explanation {
                found,
                reader,
                mark: None,
            })),
            None => Ok(()),
        }
    }

    /// Ends the way at a reader's name that breaks a rule.
    pub fn end_at_name(&self, reader: ReaderName<'f>, wrong: Wrong) -> Stop<'f> {
        if !self.is_met(wrong.refusal, reader.first + wrong.bytes.start) {
            return Stop::Lost;
        }
        Stop::Found(Explanation {
            found: format!("reader {}: {}", reader.number, wrong.words),
            reader: Some(reader),
            mark: Some(wrong.bytes),
        })
    }

    /// Whether the refusal is this one, at this place.
    fn is_met(&self, refusal: Refusal, place: usize) -> bool {
        self.refused.refusal == refusal && self.refused.place as usize == place
    }

    /// Takes a field of a known size.
    pub fn take(&mut self, size: usize, what: impl Display) -> Step<'f, &'f [u8]> {
        self.take_placed(size, self.at, what)
    }

    /// Takes bytes whose end is judged at an earlier place, their count or size field.
    pub fn take_placed(
        &mut self,
        size: usize,
        place: usize,
        what: impl Display,
    ) -> Step<'f, &'f [u8]> {
        let left = self.left();
        if size > left {
            self.meet(Refusal::PastEnd, place, || {
                Some(format!("{what} takes {}, {left} left", bytes(size)))
            })?;
            return Err(Stop::Lost);
        }
        let start = self.at;
        self.at += size;
        Ok(&self.file[start..self.at])
    }

    /// Takes a field of four bytes as a number.
    pub fn take_u32(&mut self, what: impl Display) -> Step<'f, u32> {
        let bytes = self.take(4, what)?;
        Ok(unsigned(bytes) as u32)
    }

    /// Takes a seven-bit number.
    pub fn take_seven(&mut self, what: impl Display) -> Step<'f, u32> {
        let start = self.at;
        let mut value = 0;
        for index in 0..5 {
            let Some(&byte) = self.file.get(start + index) else {
                self.meet(Refusal::PastEnd, start, || {
                    Some(match index {
                        0 => format!("{what} is due where the file ends"),
                        _ => format!("{what} goes on behind the file's end"),
                    })
                })?;
                return Err(Stop::Lost);
            };
            if index == 4 && byte > 0x0F {
                self.meet(Refusal::BrokenNumber, start, || {
                    Some(format!("{what} has the fifth byte {byte:02X}, above 0F"))
                })?;
                return Err(Stop::Lost);
            }
            value |= u32::from(byte & 0x7F) << (7 * index);
            if byte < 0x80 {
                self.at = start + index + 1;
                return Ok(value);
            }
        }
        Err(Stop::Lost)
    }

    /// Takes a seven-bit count with an upper bound.
    pub fn take_count(&mut self, most: u32, what: &str) -> Step<'f, u32> {
        let start = self.at;
        let count = self.take_seven(what)?;
        self.meet(Refusal::TooLarge, start, || {
            (count > most).then(|| format!("{what} is {count}, the limit {most}"))
        })?;
        if count > most {
            return Err(Stop::Lost);
        }
        Ok(count)
    }
}

/// A number of bytes in words.
pub fn bytes(count: usize) -> String {
    match count {
        1 => "1 byte".to_string(),
        _ => format!("{count} bytes"),
    }
}

/// Bytes in hexadecimal.
pub fn hex(bytes: &[u8]) -> String {
    let shown: Vec<String> = bytes.iter().map(|byte| format!("{byte:02X}")).collect();
    shown.join(" ")
}
