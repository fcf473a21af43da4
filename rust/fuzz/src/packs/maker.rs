//! Random files to be stored in packs.

use crate::random::Random;
use corpus::packs::{stored, Stored};

/// Characters of one to four bytes; letters, and what stands beside them in ASCII.
const CHARACTERS: [char; 32] = [
    'a', 'A', 'b', 'B', 'm', 'M', 'y', 'Y', 'z', 'Z', '@', '[', '`', '{', '0', '9', '\\', '/', '.',
    '_', ' ', '\0', '\u{7F}', 'ä', 'Ä', 'é', 'É', '\u{7FF}', '€', '\u{FEFF}', '日', '😀',
];

/// 0 to 4,096 files, mostly few.
pub fn some_files(random: &mut Random) -> Vec<Stored> {
    let count = match random.below(200) {
        0..=5 => 0,
        6..=159 => 1 + random.below(6),
        160..=196 => 1 + random.below(40),
        197..=198 => 100 + random.below(300),
        _ => random.pick(&[4095, 4096]),
    };
    let mut files: Vec<Stored> = Vec::new();
    for _ in 0..count {
        let path = some_path(random, &files);
        let most = if count > 40 { 4 } else { 40 };
        let width = random.pick(&[0, 0, 0, 2, 3, 4, 5]);
        let data = some_data(random, most);
        files.push(Stored {
            width,
            ..stored(path, data)
        });
    }
    files
}

/// A path, often one of the earlier ones in other case.
fn some_path(random: &mut Random, earlier: &[Stored]) -> Vec<u8> {
    if !earlier.is_empty() && random.chance(20) {
        let file = &earlier[random.below(earlier.len())];
        return other_case(random, &file.path);
    }
    let length = match random.below(10) {
        0 => 1,
        1 => random.pick(&[2, 127, 128, 255, 256, 259, 260]),
        _ => 1 + random.below(16),
    };
    text_of(random, length)
}

/// UTF-8 of just so many bytes.
pub fn text_of(random: &mut Random, length: usize) -> Vec<u8> {
    let mut text = String::new();
    while text.len() < length {
        let character = random.pick(&CHARACTERS);
        if text.len() + character.len_utf8() <= length {
            text.push(character);
        }
    }
    text.into_bytes()
}

/// The same bytes with ASCII letters in any case.
pub fn other_case(random: &mut Random, path: &[u8]) -> Vec<u8> {
    let mut other = path.to_vec();
    for byte in &mut other {
        if byte.is_ascii_alphabetic() && random.chance(50) {
            *byte ^= 0x20;
        }
    }
    other
}

/// Nothing, any bytes up to a length, bytes like a record's start, or a case of the XNB loader.
fn some_data(random: &mut Random, most: usize) -> Vec<u8> {
    match random.below(10) {
        0..=2 => vec![],
        3 => b"\xFD\xFE\x01a\x01\0\0\0"[..random.below(9)].to_vec(),
        4 if most > 4 => crate::case(random.number()).bytes,
        _ => {
            let count = random.below(most);
            random.bytes(count)
        }
    }
}
