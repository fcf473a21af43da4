//! The driver's profile: Req 07 of document 02.

use crate::kinds::{DICTIONARY, PAGE, SHARED_REFERENCE, STRING};
use crate::load::{read_file, Loaded, Read};
use crate::lookup::text_in;
use crate::refusal::{
    refuse, Refusal, EQUAL_READERS, NOT_A_PAGE_FIRST, NO_NEXT_PAGE, OTHER_PLATFORM, PADDED_NUMBER,
    REPEATED_KEY, UNUSED_READER,
};
use crate::row::Row;
use crate::table::{fill, room, Shape};
use std::collections::HashSet;

/// Loads a file for the driver's own screen: "exactly if the plain loader accepts it and these hold".
///
/// Its rows are then the plain loader's; after any refusal the words are zero.
pub fn load(file: &[u8], enums: &[u8], words: &mut [u32]) -> Result<Loaded, Refusal> {
    let room = room(words);
    words.fill(0);
    let read = read_file(file, enums, room)?;
    judge(file, &read)?;
    fill(Shape::Rows, words, &read.rows);
    Ok(read.loaded)
}

/// A rule of the profile: where the first offence in file order stands, if there is one.
type Rule = fn(&[u8], &Read) -> Option<usize>;

/// The rules in the order named.
const RULES: [(u32, Rule); 7] = [
    (OTHER_PLATFORM, other_platform),
    (PADDED_NUMBER, padded_number),
    (UNUSED_READER, unused_reader),
    (EQUAL_READERS, equal_readers),
    (REPEATED_KEY, repeated_key),
    (NOT_A_PAGE_FIRST, not_a_page_first),
    (NO_NEXT_PAGE, no_next_page),
];

/// Refuses with the first rule that is broken.
fn judge(file: &[u8], read: &Read) -> Result<(), Refusal> {
    for (number, offence) in RULES {
        if let Some(place) = offence(file, read) {
            return refuse(number, place);
        }
    }
    Ok(())
}

/// "Platform `w`."
fn other_platform(file: &[u8], _: &Read) -> Option<usize> {
    let place = 3;
    (file[place] != b'w').then_some(place)
}

/// "Every 7-bit number shortest."
fn padded_number(_: &[u8], read: &Read) -> Option<usize> {
    let padded = read.sevens.iter().find(|(_, seven)| seven.padding > 0);
    padded.map(|(place, _)| *place)
}

/// "Every listed reader used by some type id."
fn unused_reader(_: &[u8], read: &Read) -> Option<usize> {
    let mut used = vec![false; read.targets.len()];
    for row in &read.rows {
        // The detail of a reference is its resource id, that of any other row its type id or 0.
        if row.kind != SHARED_REFERENCE && row.detail > 0 {
            used[row.detail as usize - 1] = true;
        }
    }
    let unused = used.iter().position(|used| !used)?;
    Some(read.names[unused])
}

/// "No two readers with equal targets": the later of two.
fn equal_readers(_: &[u8], read: &Read) -> Option<usize> {
    let targets = &read.targets;
    let is_repeated = |later: &usize| targets[..*later].contains(&targets[*later]);
    let later = (0..targets.len()).find(is_repeated)?;
    Some(read.names[later])
}

/// "No two String keys of equal bytes in one dictionary": the first later key of any dictionary.
fn repeated_key(file: &[u8], read: &Read) -> Option<usize> {
    let rows = &read.rows;
    let dictionaries = (0..rows.len()).filter(|&number| rows[number].kind == DICTIONARY);
    let repeated = dictionaries.filter_map(|number| repeated_key_of(file, rows, number));
    repeated.min()
}

/// The first key of a dictionary that repeats an earlier one of it.
fn repeated_key_of(file: &[u8], rows: &[Row], dictionary: usize) -> Option<usize> {
    let mut texts = HashSet::new();
    // Keys and values stand in turn.
    for key in children(rows, dictionary).into_iter().step_by(2) {
        if key.kind != STRING {
            continue;
        }
        let first = key.first as usize;
        let text = text_in(&file[first..first + key.length as usize]);
        if !texts.insert(text) {
            return Some(first);
        }
    }
    None
}

/// The rows of a value's children.
fn children(rows: &[Row], owner: usize) -> Vec<&Row> {
    let mut children = Vec::new();
    let mut number = owner + 1;
    for _ in 0..rows[owner].children {
        children.push(&rows[number]);
        number += rows[number].rows as usize;
    }
    children
}

/// "A first object that is a Page."
fn not_a_page_first(_: &[u8], read: &Read) -> Option<usize> {
    let primary = &read.rows[0];
    (primary.kind != PAGE).then_some(primary.first as usize)
}

/// "No page whose next has resource id 0"; pages do not stand inside pages, so their references stand in their order.
fn no_next_page(_: &[u8], read: &Read) -> Option<usize> {
    let rows = &read.rows;
    let pages = (0..rows.len()).filter(|&number| rows[number].kind == PAGE);
    let mut nexts = pages.map(|page| children(rows, page)[3]);
    let next = nexts.find(|next| next.detail == 0)?;
    Some(next.first as usize)
}
