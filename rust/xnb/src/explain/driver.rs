//! Refusals of the driver's profile: the reader, the number, the key or the page that is meant.

use super::cursor::bytes;
use super::{Explanation, ReaderName};
use crate::header::{Reader, READER_COUNT};
use crate::kind::Kind;
use crate::loader::Loader;
use crate::numbers::{seven, seven_length, shortest_length};
use crate::refusal::Refusal::*;
use crate::refusal::Refused;
use crate::row::{Detail, Row};
use crate::table::Table;

/// A longer text is shown up to here.
const LONGEST_SHOWN: usize = 40;

/// What is at the place of a refusal by the driver's loader, 41 to 47.
pub fn explain<'f>(enums: &[u8], file: &'f [u8], refused: Refused) -> Option<Explanation<'f>> {
    let table = Loader::new().with_enum_bytes(enums).load(file).ok()?;
    let place = refused.place as usize;
    // The reader whose name has its first byte there.
    let named = table.readers().find(|it| it.first == place);
    let found = match refused.refusal {
        NotWindows => {
            let platform = table.header().platform.letter();
            Some(format!("the platform is {platform}, w is taken"))
        }
        NotShortest => padded(&table, place),
        UnusedReader => Some(format!("no type id names reader {}", named?.type_id)),
        EqualReaders => equal_reader(&table, named?),
        RepeatedKey => repeated_key(&table, place),
        NotPage => {
            let kind = table.row(0)?.kind;
            Some(format!("the first object is of kind {kind}"))
        }
        NoNextPage => page_without_next(&table, place),
        _ => None,
    }?;
    Some(Explanation {
        found,
        reader: named.map(|it| ReaderName {
            number: it.type_id as usize,
            first: it.first,
            bytes: it.name.as_bytes(),
        }),
        mark: None,
    })
}

/// The number at a place, with the bytes that it has and those that suffice.
fn padded(table: &Table, place: usize) -> Option<String> {
    let number = table.file().get(place..)?;
    number.iter().find(|byte| **byte < 0x80)?;
    let (value, behind) = seven(number);
    let width = number.len() - behind.len();
    let what = number_at(table, place, place + width)?;
    let (has, needs) = (bytes(width), shortest_length(value as usize));
    Some(format!("{what} is {value} in {has}, {needs} would do"))
}

/// What the seven-bit number from a place to an end is.
fn number_at(table: &Table, place: usize, end: usize) -> Option<String> {
    if place == READER_COUNT {
        return Some("the reader count".to_string());
    }
    if let Some(reader) = table.readers().find(|it| it.first == end) {
        let number = reader.type_id;
        return Some(format!("the length of the name of reader {number}"));
    }
    // The first object is right behind it.
    if table.row(0)?.first == end {
        return Some("the shared count".to_string());
    }
    table
        .rows()
        .find_map(|row| number_of_row(table, row, place))
}

/// What the number at a place is to a row.
fn number_of_row(table: &Table, row: Row, place: usize) -> Option<String> {
    let number = row.number;
    match (row.kind, row.detail) {
        (Kind::SharedReference, _) if row.first == place => {
            Some(format!("the resource id of row {number}"))
        }
        (Kind::Null, _) | (_, Detail::TypeId(_)) if row.first == place => {
            Some(format!("the type id of row {number}"))
        }
        (Kind::String, _) if row.first + seven_length(table.part(number).ok()?) == place => {
            Some(format!("the text count of row {number}"))
        }
        _ => None,
    }
}

/// The earlier reader of the same target.
fn equal_reader(table: &Table, later: Reader) -> Option<String> {
    let (number, target) = (later.type_id, later.target());
    let mut before = table.readers().take_while(|it| it.type_id < number);
    let Reader { type_id, first, .. } = before.find(|it| it.target() == target)?;
    Some(format!(
        "reader {number} reads {target}, as reader {type_id} does, whose name is at byte {first}"
    ))
}

/// The key at a place, and the earlier one of its dictionary.
fn repeated_key(table: &Table, place: usize) -> Option<String> {
    let is_key = |row: &Row| row.kind == Kind::String && row.first == place;
    let later = table.rows().find(is_key)?;
    let (row, dictionary) = (later.number, later.parent?);
    let text = table.text(row).ok()?;
    // Keys and values come in turn.
    let mut keys = table.children(dictionary).step_by(2);
    let earlier = keys.find(|key| table.text(*key) == Ok(text))?;
    let first = table.row(earlier)?.first;
    let text = quoted(text);
    Some(format!(
        "the key {text} of row {row} repeats that of row {earlier} at byte {first}, in the dictionary of row {dictionary}"
    ))
}

/// The page whose next is at a place.
fn page_without_next(table: &Table, place: usize) -> Option<String> {
    let is_next = |row: &Row| row.kind == Kind::SharedReference && row.first == place;
    let page = table.rows().find(is_next)?.parent?;
    let title = table.children(page).next()?;
    Some(match table.text(title) {
        Ok(title) => format!("the page {} of row {page} has no next page", quoted(title)),
        Err(_) => format!("the page without a title of row {page} has no next page"),
    })
}

/// The first characters of a text, in quotes.
fn quoted(text: &str) -> String {
    match text.char_indices().nth(LONGEST_SHOWN) {
        Some((end, _)) => format!("{:?}...", &text[..end]),
        None => format!("{text:?}"),
    }
}
