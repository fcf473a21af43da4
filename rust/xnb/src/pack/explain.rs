//! What a refusal of a pack found, and in which file of it.

use super::{PackRefused, COUNT_BYTES, MOST_FILES};
use crate::marks::MARK;
use crate::refusal::Refusal;
use std::ops::Range;

const SIZE_BYTES: usize = 4;
const LONGEST_PATH: usize = 260;

/// What a reading of a pack, of the marked form or of the other, found where it was refused; nothing for a place that
/// is no byte of the pack.
///
/// ```
/// use xnb::pack::explain;
///
/// let pack = b"\x02\0\0\0\x01a\x02\0\0\0hi\x04Door\x09\0\0\0hi";
/// let refused = xnb::Pack::read(pack).unwrap_err().refused().expect("a rule is broken");
/// let found = explain(pack, refused, false).expect("a byte of the pack");
/// assert_eq!(found, "file 2 of 2, Door: its data has 9 bytes, the pack only 2 more");
/// ```
pub fn explain(pack: &[u8], refused: PackRefused, marked: bool) -> Option<String> {
    let place = usize::try_from(refused.place).ok()?;
    let count = pack.first_chunk().map(|it| u32::from_le_bytes(*it));
    match (refused.refusal, count) {
        (Refusal::OutputTooSmall | Refusal::ListTooShort | Refusal::NoTableRoom, _) => None,
        (Refusal::PastEnd, None) => {
            let length = pack.len();
            Some(format!(
                "the pack has {length} bytes, its file count alone takes {COUNT_BYTES}"
            ))
        }
        (Refusal::TooLarge, Some(count)) if place == 0 => Some(format!(
            "the pack claims {count} files, the limit is {MOST_FILES}"
        )),
        (Refusal::LeftOver, Some(count)) => {
            let length = pack.len();
            Some(format!(
                "the last file, number {count}, ends at byte {place} of {length}"
            ))
        }
        (_, Some(count)) => {
            let (number, record) = record_of(pack, place, marked, count)?;
            let found = record.found(pack, place)?;
            let name = record.name(pack, place);
            Some(format!("file {number} of {count}{name}: {found}"))
        }
        (_, None) => None,
    }
}

/// Where the parts of a file's record start, as far as they can be read.
struct Record {
    /// The mark, if the form has one.
    mark: Option<usize>,
    length: usize,
    path: Option<Range<usize>>,
    /// The data, which may run past the end.
    data: Option<Range<usize>>,
}

/// The record that a place is in, with its number, counted from 1.
fn record_of(pack: &[u8], place: usize, marked: bool, count: u32) -> Option<(u32, Record)> {
    let mut at = COUNT_BYTES;
    for number in 1..=count {
        let record = Record::at(pack, at, marked);
        match &record.data {
            Some(data) if data.end <= place => at = data.end,
            _ => return Some((number, record)),
        }
    }
    None
}

impl Record {
    fn at(pack: &[u8], at: usize, marked: bool) -> Record {
        let length = if marked { at + MARK.len() } else { at };
        let path = seven_bit(pack, length).and_then(|(bytes, start)| {
            let end = start.checked_add(bytes)?;
            Some(start..end)
        });
        let data = path.as_ref().and_then(|path| {
            let size = pack.get(path.end..)?.first_chunk()?;
            let start = path.end + SIZE_BYTES;
            Some(start..start.checked_add(u32::from_le_bytes(*size) as usize)?)
        });
        Record {
            mark: marked.then_some(at),
            length,
            path,
            data,
        }
    }

    /// The path, where it is not itself what is refused.
    fn name(&self, pack: &[u8], place: usize) -> String {
        let path = self.path.as_ref().filter(|path| path.end == place);
        let text = path.and_then(|path| std::str::from_utf8(pack.get(path.clone())?).ok());
        text.map_or(String::new(), |text| format!(", {text}"))
    }

    /// What is at the place.
    fn found(&self, pack: &[u8], place: usize) -> Option<String> {
        let left = pack.len().checked_sub(place)?;
        if self.mark == Some(place) {
            return Some(match pack.get(place..place + MARK.len()) {
                Some(found) => {
                    format!("found {:02X} {:02X}, the mark is FD FE", found[0], found[1])
                }
                None => format!(
                    "its mark has {} bytes, the pack only {left} more",
                    MARK.len()
                ),
            });
        }
        if place == self.length {
            let Some(path) = &self.path else {
                return Some(match pack.get(place + 4) {
                    Some(byte) => format!(
                        "the fifth byte of its path's length is {byte:02X}, 0F is the largest"
                    ),
                    None => "its path's length is cut".to_string(),
                });
            };
            let bytes = path.len();
            if bytes == 0 || bytes > LONGEST_PATH {
                return Some(format!(
                    "its path has {bytes} bytes; only 1 to {LONGEST_PATH} are taken"
                ));
            }
            return Some(match pack.get(path.clone()) {
                Some(text) => {
                    let fault = std::str::from_utf8(text).err()?.valid_up_to();
                    format!(
                        "byte {fault} of its path, {:02X}, is not UTF-8",
                        text[fault]
                    )
                }
                None => format!(
                    "its path has {bytes} bytes, the pack only {} more",
                    pack.len().saturating_sub(path.start)
                ),
            });
        }
        Some(match &self.data {
            Some(data) => {
                let (bytes, left) = (data.len(), pack.len().checked_sub(data.start)?);
                format!("its data has {bytes} bytes, the pack only {left} more")
            }
            None => format!("its size has {SIZE_BYTES} bytes, the pack only {left} more"),
        })
    }
}

/// The seven-bit number at a place and the place behind it.
fn seven_bit(pack: &[u8], at: usize) -> Option<(usize, usize)> {
    let bytes = pack.get(at..)?;
    let mut number = 0;
    for (step, byte) in bytes.iter().take(5).enumerate() {
        if step == 4 && *byte > 0x0F {
            return None;
        }
        number |= usize::from(byte & 0x7F) << (7 * step);
        if *byte < 0x80 {
            return Some((number, at + step + 1));
        }
    }
    None
}
