//! Loading a whole file.

use crate::cursor::Cursor;
use crate::enums::EnumList;
use crate::header::{check_header, HEADER_BYTES};
use crate::kinds::OBJECT;
use crate::name::parse_name;
use crate::refusal::{demand, Refusal, LEFT_OVER, READER_VERSION, TOO_LARGE};
use crate::row::{Row, WORDS_PER_ROW};
use crate::seven::Seven;
use crate::table::{fill, room, Shape};
use crate::types::{reader_target, Type};
use crate::walk::{Spot, Walk};

const MOST_READERS: u32 = 64;
const MOST_SHARED: u32 = 256;
const LONGEST_NAME: u32 = 1024;
/// The rows that the asset builder and the programs have room for.
pub const BUILDER_ROWS: usize = 1024;

/// What an accepted file holds.
#[derive(Clone, Copy, Debug, PartialEq, Eq)]
pub struct Loaded {
    pub rows: usize,
    pub readers: usize,
    pub shared: usize,
    /// How many bytes the file's seven-bit numbers have more than their shortest forms.
    pub padding: usize,
}

/// The padding that is reported of a file: "Refused files report 0."
pub fn reported_padding(answer: Result<Loaded, Refusal>) -> usize {
    answer.map_or(0, |loaded| loaded.padding)
}

/// A file that was read: its counts, its readers, its rows and its seven-bit numbers in order.
pub struct Read {
    pub loaded: Loaded,
    /// The target of each reader.
    pub targets: Vec<Type>,
    /// The first byte of each reader's name.
    pub names: Vec<usize>,
    pub rows: Vec<Row>,
    pub sevens: Vec<(usize, Seven)>,
}

/// Loads a file into the table of 01; the enums are the lent list of Req 02.
pub fn load(file: &[u8], enums: &[u8], words: &mut [u32]) -> Result<Loaded, Refusal> {
    load_in(Shape::Rows, file, enums, words)
}

/// Loads a file and leaves its rows in the words, with zeros in every other word.
pub fn load_in(
    shape: Shape,
    file: &[u8],
    enums: &[u8],
    words: &mut [u32],
) -> Result<Loaded, Refusal> {
    let answer = read_file(file, enums, room(words));
    match answer {
        Ok(read) => {
            fill(shape, words, &read.rows);
            Ok(read.loaded)
        }
        Err(refusal) => {
            words.fill(0);
            Err(refusal)
        }
    }
}

/// "The builder and `rows` lend an empty one."
pub const NO_ENUMS: &[u8] = &[];

/// The asset builder's number: refusal times 2 to the 32 plus place, or the row count.
pub fn builder_answer(file: &[u8]) -> u64 {
    let mut words = vec![0; BUILDER_ROWS * WORDS_PER_ROW];
    match load(file, NO_ENUMS, &mut words) {
        Ok(loaded) => loaded.rows as u64,
        Err(refusal) => (u64::from(refusal.number) << 32) + refusal.place as u64,
    }
}

/// Reads a file into at most as many rows as there is room for; the list of enums is judged before all else.
pub fn read_file(file: &[u8], enums: &[u8], room: usize) -> Result<Read, Refusal> {
    let enums = EnumList::read(enums)?;
    check_header(file)?;
    let mut cursor = Cursor::new(file, HEADER_BYTES);
    let (targets, names) = read_readers(&mut cursor, &enums)?;
    let shared = read_count(&mut cursor, MOST_SHARED)?;
    let mut walk = Walk::new(cursor, &targets, shared, room);
    let anything = Type::plain(OBJECT);

    walk.object(&anything, Spot::TOP)?;
    let mut resources = Vec::new();
    for _ in 0..shared {
        resources.push(walk.object(&anything, Spot::TOP)?);
    }
    demand(walk.cursor.left() == 0, LEFT_OVER, walk.cursor.at)?;
    walk.check_references(&resources)?;

    let loaded = Loaded {
        rows: walk.rows.len(),
        readers: targets.len(),
        shared: shared as usize,
        padding: walk.cursor.padding,
    };
    let (rows, sevens) = (walk.rows, walk.cursor.sevens);
    Ok(Read {
        loaded,
        targets,
        names,
        rows,
        sevens,
    })
}

/// A seven-bit count with an upper bound.
fn read_count(cursor: &mut Cursor, most: u32) -> Result<u32, Refusal> {
    let start = cursor.at;
    let count = cursor.take_seven()?;
    demand(count <= most, TOO_LARGE, start)?;
    Ok(count)
}

/// The targets of the readers and the first bytes of their names.
type Readers = (Vec<Type>, Vec<usize>);

fn read_readers(cursor: &mut Cursor, enums: &EnumList) -> Result<Readers, Refusal> {
    let count = read_count(cursor, MOST_READERS)?;
    let (mut targets, mut names) = (Vec::new(), Vec::new());
    for _ in 0..count {
        let (target, name) = read_reader(cursor, enums)?;
        targets.push(target);
        names.push(name);
    }
    Ok((targets, names))
}

/// One reader: its name is judged in full before its version.
fn read_reader(cursor: &mut Cursor, enums: &EnumList) -> Result<(Type, usize), Refusal> {
    let length_place = cursor.at;
    let length = read_count(cursor, LONGEST_NAME)?;
    demand(length > 0, TOO_LARGE, length_place)?;
    let name_place = cursor.at;
    let text = cursor.take_placed(length as usize, length_place)?;
    let name = parse_name(text, name_place)?;
    let target = reader_target(&name, enums)?;
    let version_place = cursor.at;
    let version = cursor.take_u32()?;
    demand(version == 0, READER_VERSION, version_place)?;
    Ok((target, name_place))
}
