//! The reader list.

use crate::cursor::Cursor;
use crate::enums::EnumList;
use crate::names::parse_name;
use crate::refusal::{PAST_END, READER_VERSION, TOO_LARGE};
use crate::types::{Maker, Type};

const MOST_READERS: u32 = 64;
const LONGEST_NAME: usize = 1024;

/// The types that the readers' names hold, and the target of each reader.
pub struct Readers {
    pub types: Vec<Type>,
    targets: [u16; MOST_READERS as usize],
    count: usize,
}

impl Readers {
    pub fn new() -> Readers {
        Readers {
            types: Vec::new(),
            targets: [0; MOST_READERS as usize],
            count: 0,
        }
    }

    pub fn count(&self) -> usize {
        self.count
    }

    /// The number of each reader's target among the types.
    pub fn targets(&self) -> &[u16] {
        &self.targets[..self.count]
    }
}

/// Reads the reader list; each name is judged in full before its version.
pub fn read_readers<const RECORD: bool>(
    cursor: &mut Cursor<RECORD>,
    enums: &EnumList,
    readers: &mut Readers,
) -> Option<()> {
    let start = cursor.at;
    let count = cursor.seven()?;
    if count > MOST_READERS {
        return cursor.refuse(TOO_LARGE, start);
    }
    readers.count = count as usize;
    if count == 0 {
        return Some(());
    }
    let (types, mut names) = (&mut readers.types, Vec::with_capacity(8));
    types.reserve(16);
    for target in &mut readers.targets[..count as usize] {
        let start = cursor.at;
        let length = cursor.seven()? as usize;
        if length == 0 || length > LONGEST_NAME {
            return cursor.refuse(TOO_LARGE, start);
        }
        if length > cursor.left() {
            return cursor.refuse(PAST_END, start);
        }
        let (first, end) = (cursor.at, cursor.at + length);
        let file = cursor.file;
        let made = parse_name(&file[..end], first, &mut names).and_then(|()| {
            let (names, types) = (names.iter(), &mut *types);
            let mut maker = Maker {
                file,
                names,
                enums,
                types,
            };
            maker.reader_target()
        });
        match made {
            Ok(made) => *target = made,
            Err(refusal) => return cursor.refuse(refusal.number, refusal.place),
        }
        cursor.at = end;
        if cursor.number()? != 0 {
            return cursor.refuse(READER_VERSION, end);
        }
    }
    Some(())
}
