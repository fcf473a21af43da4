//! Text lists to and from XML.

use crate::inputs::Input;
use crate::tasks::Lent;
use second::NO_ENUMS;
use std::hint::black_box;
use xnb::Loader;

/// Lists of so many texts that repeat some characters so often.
const LISTS: [(&str, usize, &str, usize); 17] = [
    ("1 text of 1 MB, ASCII", 1, "The quick brown fox. ", 50_000),
    ("1 text of 1 MB, two bytes a character", 1, "äöüß", 131_072),
    (
        "1 text of 1 MB, three bytes a character",
        1,
        "€日本語",
        87_381,
    ),
    (
        "1,000 texts, full-width marks",
        1_000,
        "次は、中央駅です。（",
        10,
    ),
    ("1 text of 100,000 entities", 1, "&<>\"", 25_000),
    ("1 text of 100,000 times &", 1, "&", 100_000),
    ("1 text, an entity each 2 characters", 1, "a&", 50_000),
    ("1 text, an entity each 5 characters", 1, "abcd&", 20_000),
    (
        "1 text, an entity each 8 characters",
        1,
        "abcdefg\"",
        12_500,
    ),
    (
        "1 text, an entity each 40 characters",
        1,
        "The next stop is Harbour Street, Line 2<",
        2_500,
    ),
    ("10,000 empty texts", 10_000, "", 0),
    ("10,000 texts of 12 characters", 10_000, "Platform 12.", 1),
    (
        "10,000 texts of 20 characters",
        10_000,
        "The next stop is it.",
        1,
    ),
    (
        "10,000 texts of 38 characters",
        10_000,
        "Türen öffnen sich in Fahrtrichtung Süd",
        1,
    ),
    ("2 texts of 1 byte", 2, "a", 1),
    ("1,000 texts of 40 bytes", 1_000, "Türen öffnen sich. ", 2),
    (
        "65,535 texts of 20 bytes",
        65_535,
        "The next stop is it.",
        1,
    ),
];

/// The lists as files or as XML.
fn inputs(bytes_of: fn(&[String]) -> Vec<u8>) -> Vec<Input> {
    let input = |(name, count, characters, times): (&str, usize, &str, usize)| {
        let texts = vec![characters.repeat(times); count];
        Input {
            group: "XML",
            name: name.to_string(),
            bytes: bytes_of(&texts),
            enums: vec![],
            rows: count + 1,
            is_refused: false,
        }
    };
    LISTS.map(input).into()
}

pub fn files() -> Vec<Input> {
    inputs(fuzz::xml::file_of)
}

pub fn xml_files() -> Vec<Input> {
    inputs(fuzz::xml::xml_of)
}

/// A list with room for its other form: XML has at most six bytes for one of a text, and 13 bytes for each text.
pub fn lend(input: Input) -> Lent {
    let room = 6 * input.bytes.len() + 13 * input.rows + 200;
    Lent {
        out: vec![0; room],
        ..Lent::just(input)
    }
}

pub fn export(lent: &mut Lent) {
    let (file, words) = (black_box(&lent.file), black_box(&mut lent.words));
    let answer = Loader::new().export_xml_into(file, words, black_box(&mut lent.out));
    lent.judge(answer);
}

pub fn second_export(lent: &mut Lent) {
    let (file, words) = (black_box(&lent.file), black_box(&mut lent.words));
    let answer = second::xml::export(file, NO_ENUMS, words, black_box(&mut lent.out));
    lent.judge(answer);
}

pub fn import(lent: &mut Lent) {
    let answer = xnb::xml::import_into(black_box(&lent.file), black_box(&mut lent.out));
    lent.judge(answer);
}

pub fn second_import(lent: &mut Lent) {
    let answer = second::xml::import(black_box(&lent.file), black_box(&mut lent.out));
    lent.judge(answer);
}

pub fn copy(lent: &mut Lent) {
    let length = lent.file.len();
    black_box(&mut lent.out)[..length].copy_from_slice(black_box(&lent.file));
}
