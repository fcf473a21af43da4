//! The second program over tables that no loader left.

use fuzz::tables::{case, in_columns, most_rows, TableCase};
use second::{Shape, Table, WORDS_PER_ROW};
use std::collections::BTreeMap;

const TABLES: u64 = 40_000;

/// Asks in both shapes.
fn check(name: &str, case: &TableCase) {
    let columns = in_columns(&case.words);
    for (shape, words) in [(Shape::Rows, &case.words), (Shape::Columns, &columns)] {
        let next = second::next(Table::new(shape, words), case.row as usize);
        assert_eq!(next.unwrap_or(0), case.next as usize, "{name}: {shape:?}");
    }
}

#[test]
fn columns_have_the_words_of_the_rows() {
    assert_eq!(in_columns(&[]), []);
    let words: Vec<u32> = (0..16).collect();
    assert_eq!(in_columns(&words[..6]), words[..6]);
    assert_eq!(in_columns(&words[..8]), words[..8]);
    let columns = [0, 7, 1, 8, 2, 9, 3, 10, 4, 11, 5, 12, 6, 13, 14, 15];
    assert_eq!(in_columns(&words), columns);
    let most = 7 * 65_536;
    let words: Vec<u32> = (0..most + 9).collect();
    let columns = in_columns(&words);
    assert_eq!(columns[65_534..65_538], [most - 14, most - 7, 1, 8]);
    assert_eq!(columns[most as usize..], words[most as usize..]);
}

#[test]
fn next_in_tables_with_the_most_rows() {
    for (number, case) in most_rows().iter().enumerate() {
        check(&format!("table {number}"), case);
    }
}

#[test]
fn next_gives_what_is_known() {
    let mut answers = BTreeMap::new();
    for seed in 0..TABLES {
        let case = case(seed);
        check(&format!("seed {seed}"), &case);
        let (rows, _) = case.words.as_chunks::<WORDS_PER_ROW>();
        let count = rows.get(case.row as usize).map(|row| row[6]);
        let why = match count {
            None => "past the room",
            Some(0) => "count 0",
            Some(u32::MAX) => "the largest count",
            Some(_) if case.next == 0 => "count past the room",
            Some(_) if case.next as usize == rows.len() => "to the room's end",
            Some(_) => "to a row",
        };
        *answers.entry(why).or_insert(0) += 1;
    }
    println!("{answers:?}");
    assert_eq!(answers.len(), 6);
    for (why, count) in answers {
        assert!(count > 1000, "{why}: only {count}");
    }
}
