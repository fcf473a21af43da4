//! Files with the places of their texts, and other texts for those places: Req 12.

use crate::enums::{bytes_of, damaged, some_enums};
use crate::maker::{make, Planted, Wish};
use crate::random::Random;
use crate::{blind, some_words};
use corpus::readers::{reader, STRING};
use corpus::values::{object, text as text_value};
use corpus::writer::{
    each_seven, set_length, write, Field, File, Role, Seven, Written, WORDS_PER_ROW,
};
use std::ops::Range;

const MOST_READERS: usize = 64;
const MOST_SHARED: usize = 256;

/// A file to be loaded, and the texts that a walk reads as valid, whatever it meets behind them.
#[derive(Clone, Debug)]
pub struct TextCase {
    pub bytes: Vec<u8>,
    /// The lent list of enum types.
    pub enums: Vec<u8>,
    pub words: usize,
    /// The bytes of each text, in file order.
    pub texts: Vec<Range<usize>>,
    /// Whether the file has no other text.
    pub all_texts: bool,
}

/// The case of a seed: a lawful file, one that is refused behind some of its texts, or one with a refused list.
pub fn case(seed: u64) -> TextCase {
    let mut random = Random::new(seed);
    let random = &mut random;
    let listed = match random.below(4) {
        0 => some_enums(random),
        _ => Vec::new(),
    };
    let meshes = random.chance(30);
    let enums = &listed;
    let planted = some_planted(random);
    let mut file = make(random, planted, Wish { enums, meshes }).file;
    if random.chance(60) {
        put_text_first(random, &mut file);
    }
    let written = write(&file);

    let mut case = TextCase {
        bytes: written.bytes.clone(),
        enums: bytes_of(enums),
        words: some_words(random, written.rows.len()),
        texts: Vec::new(),
        all_texts: false,
    };
    let mut walked = walked_to(planted, &written);
    match random.below(12) {
        0 if !enums.is_empty() => case.enums = damaged(random, enums).bytes,
        0..=5 => {}
        6..=7 => {
            let room = random.below(written.rows.len());
            case.words = WORDS_PER_ROW * room + random.below(WORDS_PER_ROW);
            walked = walked.min(written.rows[room][1] as usize);
        }
        8 => {
            let count = 1 + random.below(5);
            case.bytes.extend(random.bytes(count));
            set_length(&mut case.bytes, 0);
        }
        _ => {
            case.bytes = blind::damaged(random, &written);
            walked = walked.min(first_difference(&written.bytes, &case.bytes));
        }
    }
    let texts = texts(&written);
    let read = texts.iter().filter(|text| text.end <= walked);
    case.texts = read.cloned().collect();
    case.all_texts = case.texts.len() == texts.len() && case.bytes == written.bytes;
    case
}

/// Makes a text the primary object, and the former one the last shared object, whatever is wrong with it.
fn put_text_first(random: &mut Random, file: &mut File) {
    if file.readers.len() == MOST_READERS || file.objects.len() > MOST_SHARED {
        return;
    }
    file.readers.push(reader(STRING));
    let length = random.pick(&[1, 7, 30, 130]);
    let first = object(file.readers.len() as u32, text_value(&text(random, length)));
    let former = std::mem::replace(&mut file.objects[0], first);
    file.objects.push(former);
    let one_more = &mut |_: Role, count: &mut Seven| count.value += 1;
    each_seven(&mut file.reader_count, one_more);
    each_seven(&mut file.shared_count, one_more);
}

fn some_planted(random: &mut Random) -> Planted {
    match random.below(12) {
        0..=1 => Planted::WrongResource,
        2 => Planted::BadFont,
        3 => Planted::TooDeep,
        _ => Planted::Nothing,
    }
}

/// How far every walk of the file gets: a wrong resource is judged when all values are read.
fn walked_to(planted: Planted, written: &Written) -> usize {
    match (planted, written.fault) {
        (Planted::BadFont | Planted::TooDeep, Some(place)) => place,
        _ => written.bytes.len(),
    }
}

/// The first byte in which two files differ, the header's length apart as long as it is right.
fn first_difference(one: &[u8], other: &[u8]) -> usize {
    let right = |file: &[u8]| file.get(6..10) == Some(&(file.len() as u32).to_le_bytes());
    if !right(other) {
        return 0;
    }
    let differs = |place: &usize| !(6..10).contains(place) && one.get(*place) != other.get(*place);
    let longer = one.len().max(other.len());
    (0..longer).find(differs).unwrap_or(longer)
}

/// The bytes of every text of a file.
fn texts(written: &Written) -> Vec<Range<usize>> {
    let counts = written.fields.iter();
    let counts = counts.filter(|field| field.role == Role::TextCount);
    let text = |count: &Field| count.end..count.data_end;
    counts.map(text).collect()
}

/// The same file with another valid text of the same length in each of these places.
pub fn retyped(random: &mut Random, file: &[u8], texts: &[Range<usize>]) -> Vec<u8> {
    let mut file = file.to_vec();
    for place in texts {
        let new = text(random, place.len());
        file[place.clone()].copy_from_slice(new.as_bytes());
    }
    file
}

/// A text of just so many bytes: all ASCII, or characters of each size.
pub fn text(random: &mut Random, length: usize) -> String {
    let longest = random.pick(&[1, 2, 3, 4, 4, 4]);
    let mut text = String::new();
    while text.len() < length {
        let left = length - text.len();
        let size = 1 + random.below(left.min(longest));
        text.push(character(random, size));
    }
    text
}

/// The first and the last characters of each size in UTF-8.
const BOUNDS: [(u32, u32); 4] = [
    (0, 0x7F),
    (0x80, 0x7FF),
    (0x800, 0xFFFF),
    (0x1_0000, 0x10_FFFF),
];

/// A character of so many bytes, those at the bounds and control characters too.
fn character(random: &mut Random, size: usize) -> char {
    let (first, last) = BOUNDS[size - 1];
    let code = match random.below(10) {
        0 => first,
        1 => last,
        _ => random.between(first, last),
    };
    // A surrogate is no character.
    char::from_u32(code).unwrap_or('\u{FFFD}')
}

/// Just so many bytes that are no text; one or more.
pub fn no_text(random: &mut Random, length: usize) -> Vec<u8> {
    loop {
        let mut bytes = text(random, length).into_bytes();
        let place = random.below(length);
        match random.below(4) {
            // A surrogate, an overlong form and a character past the last one.
            0 => overwrite(&mut bytes, place, &[0xED, 0xA0, 0x80]),
            1 => overwrite(&mut bytes, place, &[0xE0, 0x80, 0x80]),
            2 => overwrite(&mut bytes, place, &[0xF4, 0x90, 0x80, 0x80]),
            _ => {
                bytes[place] = random.pick(&[0x80, 0xBF, 0xC0, 0xC1, 0xC2, 0xE2, 0xF0, 0xF5, 0xFF])
            }
        }
        if std::str::from_utf8(&bytes).is_err() {
            return bytes;
        }
    }
}

/// Puts these bytes there, as far as there is room.
fn overwrite(bytes: &mut [u8], place: usize, new: &[u8]) {
    for (byte, new) in bytes[place..].iter_mut().zip(new) {
        *byte = *new;
    }
}

#[cfg(test)]
mod tests {
    use super::*;

    #[test]
    fn texts_have_the_length_asked_for_and_characters_of_each_size() {
        let mut random = Random::new(0);
        let mut sizes = [0; 4];
        for length in (0..300).chain([1000; 20]) {
            let text = text(&mut random, length);
            assert_eq!(text.len(), length);
            for character in text.chars() {
                sizes[character.len_utf8() - 1] += 1;
            }
            if length > 0 {
                let bytes = no_text(&mut random, length);
                assert_eq!(bytes.len(), length);
                assert!(std::str::from_utf8(&bytes).is_err());
            }
        }
        assert!(sizes.iter().all(|count| *count > 1_000), "{sizes:?}");
    }
}
