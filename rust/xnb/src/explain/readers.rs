//! The reader list and the shared count.

use super::cursor::{Cursor, Step};
use super::names::Name;
use super::types::Enums;
use super::ReaderName;
use crate::header::Target;
use crate::refusal::Refusal::*;

const MOST_READERS: u32 = 64;
const MOST_SHARED: u32 = 256;
const LONGEST_NAME: usize = 1024;

/// A reader: its name, and the type that it reads.
pub struct Reader<'f> {
    pub name: ReaderName<'f>,
    pub target: Target<'f>,
}

pub fn take_readers<'f>(cursor: &mut Cursor<'f>, enums: &[u8]) -> Step<'f, Vec<Reader<'f>>> {
    let count = cursor.take_count(MOST_READERS, "the reader count")?;
    let mut readers = Vec::new();
    for number in 1..=count as usize {
        readers.push(take_reader(cursor, enums, number)?);
    }
    Ok(readers)
}

pub fn take_shared_count<'f>(cursor: &mut Cursor<'f>) -> Step<'f, u32> {
    cursor.take_count(MOST_SHARED, "the shared count")
}

fn take_reader<'f>(cursor: &mut Cursor<'f>, enums: &[u8], number: usize) -> Step<'f, Reader<'f>> {
    let start = cursor.at;
    let what = format!("the length of the name of reader {number}");
    let length = cursor.take_seven(&what)? as usize;
    cursor.meet(TooLarge, start, || match length {
        0 => Some(format!("{what} is 0, a name has at least 1 byte")),
        _ if length > LONGEST_NAME => Some(format!("{what} is {length}, the limit {LONGEST_NAME}")),
        _ => None,
    })?;
    let first = cursor.at;
    let bytes = cursor.take_placed(length, start, format_args!("the name of reader {number}"))?;
    let name = ReaderName {
        number,
        first,
        bytes,
    };
    let target =
        Name::parse(bytes).and_then(|parsed| Target::of_reader(&parsed, Enums::Listed(enums)));
    let target = target.map_err(|wrong| cursor.end_at_name(name, wrong))?;
    let place = cursor.at;
    let version = cursor.take_u32(format_args!("the version of reader {number}"))?;
    cursor.meet_reader(ReaderVersion, place, Some(name), || {
        (version != 0)
            .then(|| format!("the version of reader {number} is {version}; only 0 is taken"))
    })?;
    Ok(Reader { name, target })
}
