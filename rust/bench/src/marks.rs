//! Conversions of a pack of 1,000 files of 64 KB between its two forms.

use crate::inputs::Input;
use crate::tasks::Lent;
use corpus::packs::marked::MARKED;
use corpus::packs::{stored, write_pack, Stored, NO_MARK};
use std::hint::black_box;

const FILES: usize = 1000;
const BYTES: usize = 64_000;

/// The pack in one of its forms; its data holds no mark.
fn pack(mark: &[u8]) -> Vec<Input> {
    let file = |number: usize| stored(format!("Levels\\Door{number:06}"), vec![b'd'; BYTES]);
    let files: Vec<Stored> = (0..FILES).map(file).collect();
    vec![Input {
        group: "packs",
        name: "1,000 files of 64 KB".to_string(),
        bytes: write_pack(mark, &files).bytes,
        enums: vec![],
        rows: FILES,
        is_refused: false,
    }]
}

pub fn plain() -> Vec<Input> {
    pack(NO_MARK)
}

pub fn marked() -> Vec<Input> {
    pack(MARKED.mark)
}

/// A pack with room for its marks; all bytes are touched before.
pub fn lend(input: Input) -> Lent {
    let out = vec![1; input.bytes.len() + 2 * FILES];
    Lent {
        out,
        ..Lent::new(input, 0)
    }
}

pub fn copy(lent: &mut Lent) {
    let length = lent.file.len();
    black_box(&mut lent.out)[..length].copy_from_slice(black_box(&lent.file));
}

pub fn mark(lent: &mut Lent) {
    let answer = xnb::marks::mark_into(black_box(&lent.file), black_box(&mut lent.out));
    lent.judge(answer);
}

pub fn second_mark(lent: &mut Lent) {
    let answer = second::marks::mark(black_box(&lent.file), black_box(&mut lent.out));
    lent.judge(answer);
}

pub fn unmark(lent: &mut Lent) {
    let answer = xnb::marks::unmark_into(black_box(&lent.file), black_box(&mut lent.out));
    lent.judge(answer);
}

pub fn second_unmark(lent: &mut Lent) {
    let answer = second::marks::unmark(black_box(&lent.file), black_box(&mut lent.out));
    lent.judge(answer);
}
