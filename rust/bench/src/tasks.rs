//! What the programs are asked to do, with what is lent to them.

use crate::inputs::Input;
use second::NO_ENUMS;
use std::hint::black_box;
use xnb::{Loader, Shape};

/// A file, a list of enum types, words for rows, words for files and an output.
pub struct Lent {
    pub file: Vec<u8>,
    pub enums: Vec<u8>,
    pub words: Vec<u32>,
    pub table: Vec<u64>,
    pub out: Vec<u8>,
    /// Whether the programs must refuse the file.
    pub is_refused: bool,
}

impl Lent {
    /// An input with room for so many rows or files, and an output as long as the file.
    pub fn new(input: Input, room: usize) -> Lent {
        Lent {
            words: vec![0; xnb::WORDS_PER_ROW * room],
            table: vec![0; 4 * room],
            out: vec![0; input.bytes.len()],
            enums: input.enums,
            file: input.bytes,
            is_refused: input.is_refused,
        }
    }

    /// An input with room for just its rows or files.
    pub fn just(input: Input) -> Lent {
        let room = input.rows;
        Lent::new(input, room)
    }

    /// A program's answer must be the expected one.
    pub fn judge<T, E>(&self, answer: Result<T, E>) {
        assert_eq!(black_box(answer).is_err(), self.is_refused);
    }
}

pub type Task = fn(&mut Lent);

/// The asset builder's entry, which has room for 1,024 rows of its own.
pub fn count_rows(lent: &mut Lent) {
    let answer = xnb::count_rows(black_box(&lent.file));
    lent.judge(answer);
}

pub fn load_rows(lent: &mut Lent) {
    load_in(Shape::Rows, lent);
}

pub fn load_columns(lent: &mut Lent) {
    load_in(Shape::Columns, lent);
}

fn load_in(shape: Shape, lent: &mut Lent) {
    let (file, words) = (black_box(&lent.file), black_box(&mut lent.words));
    let loader = Loader::new().with_enum_bytes(black_box(&lent.enums));
    let answer = loader.load_words(shape, file, words);
    lent.judge(answer);
}

pub fn tuned_load(lent: &mut Lent) {
    let (file, words) = (black_box(&lent.file), black_box(&mut lent.words));
    let answer = tuned::load(file, black_box(&lent.enums), words);
    lent.judge(answer);
}

pub fn second_load(lent: &mut Lent) {
    second_load_in(second::Shape::Rows, lent);
}

pub fn second_load_columns(lent: &mut Lent) {
    second_load_in(second::Shape::Columns, lent);
}

fn second_load_in(shape: second::Shape, lent: &mut Lent) {
    let (file, words) = (black_box(&lent.file), black_box(&mut lent.words));
    let enums = black_box(&lent.enums);
    let answer = second::load_in(shape, file, enums, words);
    lent.judge(answer);
}

pub fn rewrite(lent: &mut Lent) {
    let (file, words) = (black_box(&lent.file), black_box(&mut lent.words));
    let answer = xnb::rewrite(file, words, black_box(&mut lent.out));
    lent.judge(answer);
}

pub fn tuned_rewrite(lent: &mut Lent) {
    let (file, words) = (black_box(&lent.file), black_box(&mut lent.words));
    let out = black_box(&mut lent.out);
    let answer = tuned::rewrite(file, NO_ENUMS, words, out);
    lent.judge(answer);
}

pub fn second_rewrite(lent: &mut Lent) {
    let (file, words) = (black_box(&lent.file), black_box(&mut lent.words));
    let out = black_box(&mut lent.out);
    let answer = second::rewrite(file, NO_ENUMS, words, out);
    lent.judge(answer);
}

pub fn read_pack(lent: &mut Lent) {
    let (pack, table) = (black_box(&lent.file), black_box(&mut lent.table));
    let answer = xnb::pack::read(pack, table);
    lent.judge(answer);
}

pub fn tuned_read_pack(lent: &mut Lent) {
    let (pack, table) = (black_box(&lent.file), black_box(&mut lent.table));
    let answer = tuned::pack::read(pack, table);
    lent.judge(answer);
}

pub fn second_read_pack(lent: &mut Lent) {
    let (pack, table) = (black_box(&lent.file), black_box(&mut lent.table));
    let answer = second::pack::read(pack, table);
    lent.judge(answer);
}

/// The standard library's judgement of the text of a file that holds one text alone.
pub fn judge_text(lent: &mut Lent) {
    // Header, reader list, shared count, type id and text count stand before it.
    let text = &lent.file[65..];
    black_box(std::str::from_utf8(black_box(text))).expect("lawful");
}

pub fn copy(lent: &mut Lent) {
    black_box(&mut lent.out).copy_from_slice(black_box(&lent.file));
}
