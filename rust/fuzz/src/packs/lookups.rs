//! Paths to look up in packs, and tables that no reader left.

use super::maker::{other_case, text_of};
use crate::random::Random;

/// Paths that are in the pack, nearly in it, or anything.
pub fn some_paths(random: &mut Random, stored: &[Vec<u8>], count: usize) -> Vec<Vec<u8>> {
    (0..count).map(|_| some_path(random, stored)).collect()
}

fn some_path(random: &mut Random, stored: &[Vec<u8>]) -> Vec<u8> {
    let mut path = if stored.is_empty() {
        let length = random.below(6);
        text_of(random, length)
    } else {
        let any = random.below(stored.len());
        stored[any].clone()
    };
    let place = random.below(path.len() + 1);
    match random.below(12) {
        0 => path.truncate(place),
        1 => path.insert(place, random.byte()),
        // Bytes that differ by 20 hex and are no letters stay different.
        2..=3 => flip(&mut path, place, 0x20),
        4 => flip(&mut path, place, 1 << random.below(8)),
        5 => {
            let length = random.pick(&[0, 1, 2, 260, 261]);
            path = random.bytes(length);
        }
        _ => path = other_case(random, &path),
    }
    path
}

fn flip(path: &mut [u8], place: usize, bits: u8) {
    if let Some(byte) = path.get_mut(place) {
        *byte ^= bits;
    }
}

/// Words that do not belong to the pack: a table with changed words, or any words.
pub fn other_table(random: &mut Random, pack: &[u8], table: &[u64]) -> Vec<u64> {
    let mut words = table[..table.len().min(400)].to_vec();
    if words.is_empty() || random.chance(20) {
        let count = random.below(60);
        words = (0..count).map(|_| some_word(random, pack)).collect();
    }
    for _ in 0..random.below(1 + words.len()) {
        let place = random.below(words.len());
        words[place] = other_word(random, pack, &words, place);
    }
    match random.below(4) {
        0 => words.truncate(random.below(words.len() + 1)),
        1 => words.splice(0..0, [0; 4]).for_each(drop),
        _ => {}
    }
    words
}

/// A word near the pack's length, near the ends of 32 and 64 bits, or any.
fn some_word(random: &mut Random, pack: &[u8]) -> u64 {
    let length = pack.len() as u64;
    let near = random.below(pack.len() + 3) as u64;
    let small = random.below(5) as u64;
    let any = random.number();
    let ends = [1 << 32, 1 << 63, u64::MAX, u64::MAX - small];
    random.pick(&[
        near, near, near, small, small, length, ends[0], ends[1], ends[2], ends[3], any,
    ])
}

/// Another word in the place of one, often such that start and length pass the pack or 64 bits.
fn other_word(random: &mut Random, pack: &[u8], words: &[u64], place: usize) -> u64 {
    let old = words[place];
    // The start of a length, the length of a start.
    let partner = words.get(place ^ 1).copied().unwrap_or(0);
    let length = pack.len() as u64;
    let rest = length.wrapping_sub(partner);
    let overflow = 0u64.wrapping_sub(partner);
    let some = some_word(random, pack);
    random.pick(&[
        rest,
        rest.wrapping_add(1),
        overflow,
        overflow.wrapping_add(1),
        overflow.wrapping_add(length),
        old.wrapping_add(1),
        old.wrapping_sub(1),
        old.wrapping_add(1 << 32),
        0,
        some,
        some,
    ])
}
