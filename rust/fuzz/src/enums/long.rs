//! Long lists of enum types: lawful, or with one entry that is not.

use super::lists::{some_size, HEAD_BYTES};
use crate::random::Random;
use corpus::enums::{entry, TARGET_NAMES};

/// A list, and the number of its first unlawful entry.
pub struct LongList {
    pub enums: Vec<u8>,
    pub refused: Option<usize>,
}

/// Lengths at both sides of those where the library takes another way, and others.
const COUNTS: [usize; 14] = [
    11, 12, 13, 14, 100, 300, 511, 513, 1000, 2047, 2048, 2049, 5000, 20_000,
];

/// The list of a seed; equal seeds give equal lists.
pub fn long_list(seed: u64) -> LongList {
    let mut random = Random::new(seed);
    let most = random.pick(&COUNTS);
    let names = some_names(&mut random, most);
    let count = names.len();
    let mut entries: Vec<Vec<u8>> = names
        .iter()
        .map(|name| entry(name.as_bytes(), some_size(&mut random)))
        .collect();
    let anywhere = random.below(count - 1) + 1;
    let late = random.pick(&[1, count / 2, count - 1, anywhere]);
    let before = random.below(late);
    let earlier = random.pick(&[0, late - 1, before]);
    let refused = match random.below(8) {
        0..=2 => None,
        3 | 4 => {
            entries[late] = entry(names[earlier].as_bytes(), some_size(&mut random));
            Some(late)
        }
        5 => {
            entries[late] = entry(names[earlier].as_bytes(), 2);
            // A later repeat does not matter.
            entries.push(entry(names[0].as_bytes(), 2));
            Some(late)
        }
        6 => {
            entries.push(entry(names[late].as_bytes(), 4));
            Some(count)
        }
        _ => {
            let unlawful = [
                entry(names[late].as_bytes(), 3),
                entry(b"", 1),
                entry(random.pick(TARGET_NAMES).as_bytes(), 1),
            ];
            entries[late] = unlawful[random.below(3)].clone();
            Some(late)
        }
    };
    LongList {
        enums: entries.concat(),
        refused,
    }
}

/// At most so many different names that are much alike.
fn some_names(random: &mut Random, count: usize) -> Vec<String> {
    let pad = "x".repeat(random.pick(&[0, 1, 2, 3, 9, 100, 230]));
    let form = random.below(5);
    let name = |number: usize| match form {
        0 => format!("Coach.{pad}{number}"),
        1 => format!("{pad}{number:05}.State"),
        2 => format!("Coach{number}+{pad}"),
        3 => format!("{number:X}_{pad}"),
        _ => format!("{pad}{}.{}", number % 7, number / 7),
    };
    match random.below(6) {
        0 => alike(count.min(2100)),
        _ => (0..count).map(name).collect(),
    }
}

/// Different names of eight bytes whose sums are all the same (crates/seen_names, `sum_of`), and so all their marks.
pub fn alike(count: usize) -> Vec<String> {
    const FACTOR: u32 = 2_654_435_769;
    let text = |word: u32| String::from_utf8(word.to_le_bytes().to_vec()).ok();
    let sum = u32::from_le_bytes(*b"Coac")
        .wrapping_mul(FACTOR)
        .wrapping_add(u32::from_le_bytes(*b"hDoo"));
    let firsts = (0_usize..).map(|number| {
        let byte = |place: u32| HEAD_BYTES[number / 65_usize.pow(place) % 65];
        u32::from_le_bytes([byte(0), byte(1), byte(2), byte(3)])
    });
    let names = firsts.filter_map(|first| {
        let second = sum.wrapping_sub(first.wrapping_mul(FACTOR));
        let bytes = second.to_le_bytes();
        let is_head = bytes.iter().all(|byte| HEAD_BYTES.contains(byte));
        is_head.then(|| Some(text(first)? + &text(second)?))?
    });
    names.take(count).collect()
}
