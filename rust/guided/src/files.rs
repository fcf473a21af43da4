//! Loads, lookups and rewrites of XNB files.

use crate::lent::Lent;
use crate::packed;
use second::{broken_branch, reported_padding, Loaded, Refusal, Table, WORDS_PER_ROW};
use xnb::raw::{self, LoadAnswer};
use xnb::{Loader, Refused, Shape};

const GARBAGE: u32 = 0xA5A5_A5A5;
/// The room of a first byte that is the largest.
const BUILDER_WORDS: usize = 1024 * WORDS_PER_ROW;

/// A file with what is lent for it: a byte for the words, a byte with the length of a list of enum types, the list.
pub struct Given<'i> {
    pub words: usize,
    pub enums: &'i [u8],
    pub file: &'i [u8],
}

impl<'i> Given<'i> {
    pub fn of(input: &'i [u8]) -> Option<Given<'i>> {
        let [words, list, rest @ ..] = input else {
            return None;
        };
        let (enums, file) = rest.split_at(usize::from(*list).min(rest.len()));
        let words = match usize::from(*words) {
            255 => BUILDER_WORDS,
            words => 3 * words,
        };
        Some(Given { words, enums, file })
    }
}

/// Loads by rows, in columns and for the driver's screen, and looks up each row and some past them.
pub fn load(input: &[u8]) {
    let Some(given) = Given::of(input) else {
        return;
    };
    let by_rows = load_in(&given, Shape::Rows);
    let in_columns = load_in(&given, Shape::Columns);
    assert_eq!(in_columns, by_rows, "both shapes");
    let Given { words, enums, file } = given;
    if words == BUILDER_WORDS && enums.is_empty() {
        assert_eq!(
            raw::load(file),
            packed(by_rows.map(|it| it.rows)),
            "the builder's number"
        );
    }
    let mut lent = Lent::new(GARBAGE, words);
    let answer = raw::load_driver(file, enums, lent.linked());
    let expected = second::driver::load(file, enums, lent.second());
    assert_eq!(answer, in_words(expected), "the driver's load");
    lent.check("the driver's load");
    explained(&given, Shape::Rows);
}

/// Loads into a table of one shape.
fn load_in(given: &Given, shape: Shape) -> Result<Loaded, Refusal> {
    let Given { words, enums, file } = *given;
    let seconds = match shape {
        Shape::Rows => second::Shape::Rows,
        Shape::Columns => second::Shape::Columns,
    };
    let mut lent = Lent::new(GARBAGE, words);
    let answer = raw::load_table(shape, file, enums, lent.linked());
    let expected = second::load_in(seconds, file, enums, lent.second());
    assert_eq!(answer, in_words(expected), "{shape:?}");
    lent.check("load");
    let rows = expected.map_or(0, |it| it.rows);
    let table = Table::new(seconds, lent.linked());
    assert_eq!(broken_branch(table, rows), None, "{shape:?}");
    let words = lent.linked();
    for row in (0..rows.min(64) + 2).chain([words.len() / WORDS_PER_ROW]) {
        look_up(file, words, shape, Table::new(seconds, words), row);
    }
    expected
}

fn look_up(file: &[u8], words: &[u32], shape: Shape, table: Table, number: usize) {
    let row = number as u32;
    let span = |answer: Result<&[u8], Refusal>| match answer {
        Ok(part) => (0, part.as_ptr().addr() - file.as_ptr().addr(), part.len()),
        Err(refusal) => (refusal.number, 0, 0),
    };
    let part = span(second::part(file, table, number));
    assert_eq!(raw::part(shape, file, words, row), part, "part of {row}");
    let text = span(second::text(file, table, number));
    assert_eq!(raw::text(shape, file, words, row), text, "text of {row}");
    let signed = match second::signed(file, table, number) {
        Ok(value) => (0, value),
        Err(refusal) => (refusal.number, 0),
    };
    assert_eq!(
        raw::signed(shape, file, words, row),
        signed,
        "number of {row}"
    );
    let time = match second::time(file, table, number) {
        Ok(time) => (0, time.seconds, time.ticks),
        Err(refusal) => (refusal.number, 0, 0),
    };
    assert_eq!(raw::time(shape, file, words, row), time, "time of {row}");
    let next = second::next(table, number).unwrap_or(0);
    assert_eq!(raw::next(shape, words, row) as usize, next, "next of {row}");
}

/// Each refusal has an explanation.
fn explained(given: &Given, shape: Shape) {
    let Given { words, enums, file } = *given;
    let loader = Loader::new().with_enum_bytes(enums);
    if let Err(Refused { refusal, place }) = loader.load_words(shape, file, &mut vec![0; words]) {
        let refused = Refused { refusal, place };
        let explanation = loader.explain(file, refused, words / WORDS_PER_ROW);
        assert!(
            explanation.is_some(),
            "{refusal:?} at {place} is not explained"
        );
    }
}

/// Rewrites: a byte more says how many bytes less than the file has are lent.
pub fn rewrite(input: &[u8]) {
    let [less, rest @ ..] = input else {
        return;
    };
    let Some(Given { words, enums, file }) = Given::of(rest) else {
        return;
    };
    let bytes = file.len().saturating_sub(usize::from(*less));
    let needed = rewrite_to(file, enums, words, bytes);
    if let Some(needed) = needed {
        for bytes in [needed, needed - 1, needed + 3] {
            rewrite_to(file, enums, words, bytes);
        }
    }
}

/// Answers the bytes needed, unless the file is refused.
fn rewrite_to(file: &[u8], enums: &[u8], words: usize, bytes: usize) -> Option<usize> {
    let mut table = Lent::new(GARBAGE, words);
    let mut out = Lent::new(0xA5, bytes);
    let answer = raw::rewrite(file, enums, table.linked(), out.linked());
    let expected = second::rewrite(file, enums, table.second(), out.second());
    assert_eq!(answer, packed(expected), "rewrite to {bytes} bytes");
    table.check("words of a rewrite");
    out.check("output of a rewrite");
    match expected {
        Ok(length) => Some(length),
        Err(refusal) => (refusal.number == 21).then_some(refusal.place),
    }
}

/// What the library answers where the second program answers so.
fn in_words(answer: Result<Loaded, Refusal>) -> LoadAnswer {
    LoadAnswer {
        packed: packed(answer.map(|it| it.rows)),
        readers: answer.map_or(0, |it| it.readers) as u32,
        shared: answer.map_or(0, |it| it.shared) as u32,
        padding: reported_padding(answer) as u32,
    }
}
