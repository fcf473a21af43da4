//! The row behind a row and all below it: the static library against the second program, over any words.

use fuzz::tables::{case, in_columns, most_rows, TableCase};
use xnb::{raw, Shape};

const TABLES: u64 = 40_000;

/// Compares the answers in both shapes for the row asked for, for each row of a small table and for those behind its
/// room.
fn compare(name: &str, table: &TableCase) {
    let TableCase { words, row, next } = table;
    let columns = in_columns(words);
    let rows = (words.len() / xnb::WORDS_PER_ROW).min(500) as u32;
    let shapes = [
        (Shape::Rows, second::Shape::Rows, words),
        (Shape::Columns, second::Shape::Columns, &columns),
    ];
    for (shape, seconds, words) in shapes {
        let label = format!("{name}: {shape:?}");
        assert_eq!(raw::next(shape, words, *row), *next, "{label}: row {row}");
        let known = Some(*next).filter(|next| *next > 0);
        assert_eq!(shape.next(words, *row), known, "{label}");
        let table = second::Table::new(seconds, words);
        for row in 0..rows + 3 {
            let expected = second::next(table, row as usize).unwrap_or(0);
            let answer = raw::next(shape, words, row) as usize;
            assert_eq!(answer, expected, "{label}: row {row}");
        }
    }
}

#[test]
fn tables_that_no_loader_left() {
    for seed in 0..TABLES {
        compare(&format!("seed {seed}"), &case(seed));
    }
}

#[test]
fn tables_with_the_most_rows() {
    for (number, table) in most_rows().iter().enumerate() {
        compare(&format!("table {number}"), table);
    }
}
