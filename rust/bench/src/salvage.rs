//! Salvage of damaged packs.

use crate::inputs::Input;
use crate::marks;
use crate::tasks::Lent;
use corpus::packs::marked::MARKED;
use corpus::packs::{stored, write_pack, Stored};
use fuzz::random::Random;
use std::hint::black_box;
use xnb::salvage::{salvage_into, MOST_STRETCHES};

/// The bytes of a record, of which 4,096 have just below 100 MB.
const RECORD: usize = 24_414;
const LENGTHS: [usize; 2] = [10_000_000, 100_000_000];

/// A pack of nearly so many bytes.
type Make = fn(usize) -> Vec<u8>;

const DAMAGES: [(&str, Make); 5] = [
    ("undamaged", undamaged),
    ("one byte in 1,000 damaged", damaged),
    ("all `FD FE`", |length| repeated(b"\xFD\xFE", length)),
    ("all `FD FE 84 02`", |length| {
        repeated(b"\xFD\xFE\x84\x02", length)
    }),
    ("all `FD FE 01 61 FF FF FF FF`", |length| {
        repeated(b"\xFD\xFE\x01a\xFF\xFF\xFF\xFF", length)
    }),
];

/// A marked pack of records of one size, whose data is random, with nearly so many bytes.
fn undamaged(length: usize) -> Vec<u8> {
    let mut random = Random::new(1);
    let path = |number: usize| format!("Levels\\Door{number:06}");
    let head = write_pack(MARKED.mark, &[stored(path(0), "")]).bytes.len() - 4;
    let file = |number| stored(path(number), random.bytes(RECORD - head));
    let files: Vec<Stored> = (0..length / RECORD).map(file).collect();
    write_pack(MARKED.mark, &files).bytes
}

/// The same with a random byte at a random place of each 1,000 bytes.
fn damaged(length: usize) -> Vec<u8> {
    let mut random = Random::new(2);
    let mut pack = undamaged(length);
    for bytes in pack.chunks_mut(1000) {
        bytes[random.below(bytes.len())] = random.byte();
    }
    pack
}

fn repeated(bytes: &[u8], length: usize) -> Vec<u8> {
    bytes.iter().copied().cycle().take(length).collect()
}

/// Each kind of damage at each length, and an undamaged pack of files of 64 KB.
pub fn inputs() -> Vec<Input> {
    let of_length = |(name, make): (&str, Make), length: usize| Input {
        group: "packs",
        name: format!("{} MB, {name}", length / 1_000_000),
        bytes: make(length),
        enums: vec![],
        rows: length / RECORD,
        is_refused: false,
    };
    let damages = DAMAGES.into_iter();
    let inputs = damages.flat_map(|damage| LENGTHS.map(|length| of_length(damage, length)));
    inputs.chain(marks::marked()).collect()
}

/// A pack with a list for all stretches; all bytes are touched before.
pub fn lend(input: Input) -> Lent {
    Lent {
        out: vec![1; input.bytes.len()],
        table: vec![1; 2 * MOST_STRETCHES],
        ..Lent::new(input, 0)
    }
}

pub fn salvage(lent: &mut Lent) {
    let (out, list) = (black_box(&mut lent.out), black_box(&mut lent.table));
    let answer = salvage_into(black_box(&lent.file), out, list);
    lent.judge(answer);
}

pub fn second_salvage(lent: &mut Lent) {
    let (out, list) = (black_box(&mut lent.out), black_box(&mut lent.table));
    let answer = second::salvage::salvage(black_box(&lent.file), out, list);
    lent.judge(answer);
}
