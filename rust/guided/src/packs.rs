//! Packs, marked packs and their salvage.

use crate::in_two;
use crate::lent::Lent;
use second::Refusal;
use xnb::pack::WORDS_PER_FILE;
use xnb::raw;

const GARBAGE: u64 = 0xA5A5_A5A5_A5A5_A5A5;
/// Longer tables are not lent.
const MOST_WORDS: usize = 64;

/// Reads a pack as either form, looks up its paths, and converts it both ways: a byte says how many words and bytes are lent.
pub fn packs(input: &[u8]) {
    let [lent, pack @ ..] = input else {
        return;
    };
    let words = usize::from(*lent) % MOST_WORDS;
    read(pack, words, raw::pack::read, second::pack::read);
    read(pack, words, raw::marks::read, second::marks::marked_read);
    let bytes = (pack.len() + 8).saturating_sub(usize::from(*lent));
    convert(pack, bytes, raw::marks::mark, second::marks::mark);
    convert(pack, bytes, raw::marks::unmark, second::marks::unmark);
}

type LinkedRead = fn(&[u8], &mut [u64]) -> (u32, u64);
type SecondRead = fn(&[u8], &mut [u64]) -> Result<usize, Refusal>;

fn read(pack: &[u8], words: usize, linked: LinkedRead, second: SecondRead) {
    let mut table = Lent::new(GARBAGE, words);
    let answer = linked(pack, table.linked());
    let expected = second(pack, table.second());
    assert_eq!(answer, in_two(expected), "reading with {words} words");
    table.check("a table");
    let words = table.linked();
    for entry in words.chunks_exact(WORDS_PER_FILE) {
        let (first, length) = (entry[0] as usize, entry[1] as usize);
        if let Some(path) = pack.get(first..).and_then(|it| it.get(..length)) {
            find(pack, words, path);
            find(pack, words, &path.to_ascii_uppercase());
        }
    }
    find(pack, words, pack);
}

fn find(pack: &[u8], table: &[u64], path: &[u8]) {
    let expected = match second::pack::find(pack, table, path) {
        Some(data) => {
            let first = data.as_ptr().addr() - pack.as_ptr().addr();
            (1, first as u64, data.len() as u64)
        }
        None => (0, 0, 0),
    };
    assert_eq!(raw::pack::find(pack, table, path), expected, "{path:02X?}");
}

type LinkedConversion = fn(&[u8], &mut [u8]) -> (u32, u64);
type SecondConversion = fn(&[u8], &mut [u8]) -> Result<usize, Refusal>;

fn convert(pack: &[u8], bytes: usize, linked: LinkedConversion, second: SecondConversion) {
    let mut out = Lent::new(0xA5, bytes);
    let answer = linked(pack, out.linked());
    let expected = second(pack, out.second());
    assert_eq!(answer, in_two(expected), "to {bytes} bytes");
    out.check("a converted pack");
}

/// Salvages: a byte says how many bytes less than the pack has are lent, a byte how many words.
pub fn salvage(input: &[u8]) {
    let [less, words, pack @ ..] = input else {
        return;
    };
    let bytes = pack.len().saturating_sub(usize::from(*less));
    let mut out = Lent::new(0xA5, bytes);
    let mut list = Lent::new(GARBAGE, usize::from(*words));
    let answer = raw::salvage::salvage(pack, out.linked(), list.linked());
    let expected = match second::salvage::salvage(pack, out.second(), list.second()) {
        Ok(it) => (0, it.length as u64, it.stretches as u64),
        Err(refusal) => (refusal.number, refusal.place as u64, 0),
    };
    assert_eq!(answer, expected, "salvage to {bytes} bytes");
    out.check("a salvaged pack");
    list.check("the skipped stretches");
}
