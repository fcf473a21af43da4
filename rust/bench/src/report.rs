//! Reports over packs.

use crate::inputs::Input;
use crate::tasks::Lent;
use corpus::packs::{stored, write_pack, Stored, NO_MARK};
use corpus::readers::{list_of, STRING, TEXTURE2D};
use corpus::values::*;
use corpus::writer::write;
use std::hint::black_box;
use xnb::report::{REPORT_WORDS, ROW_WORDS};

/// A pack of so many files with the same data.
fn pack(files: usize, data: &[u8]) -> Vec<u8> {
    let file = |number: usize| stored(format!("Levels\\Door{number:06}"), data.to_vec());
    let files: Vec<Stored> = (0..files).map(file).collect();
    write_pack(NO_MARK, &files).bytes
}

fn a_text(length: usize) -> Vec<u8> {
    let text = object(1, text(&"x".repeat(length)));
    write(&file(&[STRING], text, vec![])).bytes
}

fn a_picture() -> Vec<u8> {
    let picture = object(1, texture(0, 512, 512, 10));
    write(&file(&[TEXTURE2D], picture, vec![])).bytes
}

/// A list of bytes with so many rows.
fn a_list(rows: usize) -> Vec<u8> {
    let bytes = object(1, list(vec![byte(7); rows - 1]));
    write(&file(&[list_of("System.Byte")], bytes, vec![])).bytes
}

pub fn inputs() -> Vec<Input> {
    let packs = [
        (
            "4,096 files that are no XNB files, 4 KiB",
            pack(4096, &[7; 4096]),
        ),
        ("4,096 texts of 100 bytes", pack(4096, &a_text(100))),
        ("4,096 texts of 10,000 bytes", pack(4096, &a_text(10_000))),
        ("50 pictures of 512 by 512", pack(50, &a_picture())),
        ("1,000 lists of 1,000 rows", pack(1_000, &a_list(1_000))),
        ("20 lists of 65,536 rows", pack(20, &a_list(65_536))),
    ];
    let input = |(name, bytes): (&str, Vec<u8>)| Input {
        group: "reports",
        name: name.to_string(),
        bytes,
        enums: vec![],
        rows: 4096,
        is_refused: false,
    };
    packs.map(input).into()
}

/// A pack with words for the most files and the most rows.
pub fn lend(input: Input) -> Lent {
    Lent {
        words: vec![0; ROW_WORDS],
        ..Lent::just(input)
    }
}

pub fn add(lent: &mut Lent) {
    let (table, words) = (black_box(&mut lent.table), black_box(&mut lent.words));
    let mut report = [0; REPORT_WORDS];
    let answer = xnb::raw::report::add(black_box(&lent.file), &[], table, words, &mut report);
    assert_eq!(black_box(answer), (0, 0));
    black_box(report);
}

pub fn second_add(lent: &mut Lent) {
    let (table, words) = (black_box(&mut lent.table), black_box(&mut lent.words));
    let mut report = [0; REPORT_WORDS];
    let answer = second::report::add(black_box(&lent.file), &[], table, words, &mut report);
    lent.judge(answer);
    black_box(report);
}
