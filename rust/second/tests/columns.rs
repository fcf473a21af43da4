//! Req 08: the table in columns.

use corpus::lawful::{file_a, file_b};
use corpus::readers::list_of;
use corpus::values::*;
use corpus::writer::write;
use second::{load, load_in, Refusal, Shape, Table, WORDS_PER_ROW};

const GARBAGE: u32 = 0xAAAA_AAAA;

/// A list of two bytes: three rows.
fn list_file() -> Vec<u8> {
    let elements = vec![byte(7), byte(8)];
    write(&file(
        &[list_of("System.Byte")],
        object(1, list(elements)),
        vec![],
    ))
    .bytes
}

/// "All kinds first, then all first bytes, and so on, each column as long as the room."
#[test]
fn columns_are_as_long_as_the_room() {
    let file = list_file();
    let first = file.len() as u32 - 7;
    // A room of three rows, just enough, and of four.
    let just = [
        [18, 1, 1],
        [first, first + 5, first + 6],
        [7, 1, 1],
        [2, 0, 0],
        [0, 1, 1],
        [1, 0, 0],
        [3, 1, 1],
    ];
    for excess in 0..WORDS_PER_ROW {
        let mut words = vec![GARBAGE; 3 * WORDS_PER_ROW + excess];
        let loaded = load_in(Shape::Columns, &file, &[], &mut words).expect("a lawful file");
        assert_eq!(loaded.rows, 3);
        let (columns, rest) = words.split_at(3 * WORDS_PER_ROW);
        assert_eq!(columns, just.concat());
        assert_eq!(rest, vec![0; excess]);

        let mut words = vec![GARBAGE; 4 * WORDS_PER_ROW + excess];
        load_in(Shape::Columns, &file, &[], &mut words).expect("a lawful file");
        let (columns, rest) = words.split_at(4 * WORDS_PER_ROW);
        assert_eq!(columns, just.map(|[a, b, c]| [a, b, c, 0]).concat());
        assert_eq!(rest, vec![0; excess]);
    }
}

/// The words of P1 and P3 in columns, with room for one row and for two.
#[test]
fn files_a_and_b() {
    let cases = [
        (write(&file_a()).bytes, [0, 12, 1, 0, 0, 0, 1]),
        (write(&file_b()).bytes, [13, 61, 4, 0, 0, 1, 1]),
    ];
    for (file, row) in cases {
        let mut words = [GARBAGE; WORDS_PER_ROW];
        load_in(Shape::Columns, &file, &[], &mut words).expect("a lawful file");
        assert_eq!(words, row);
        let mut words = [GARBAGE; 2 * WORDS_PER_ROW];
        load_in(Shape::Columns, &file, &[], &mut words).expect("a lawful file");
        assert_eq!(words.as_slice(), row.map(|word| [word, 0]).concat());
    }
}

#[test]
fn all_words_are_zero_after_a_refusal() {
    let file = list_file();
    // The list and its first element have rows.
    let place = file.len() - 1;
    for count in 2 * WORDS_PER_ROW..3 * WORDS_PER_ROW {
        let mut words = vec![GARBAGE; count];
        let answer = load_in(Shape::Columns, &file, &[], &mut words);
        assert_eq!(answer, Err(Refusal { number: 19, place }));
        assert_eq!(words, vec![0; count]);
    }
}

/// With words for more than 65,536 rows a column has 65,536.
#[test]
fn a_column_has_at_most_65536_words() {
    let file = list_file();
    let mut words = vec![GARBAGE; WORDS_PER_ROW * 65_537];
    load_in(Shape::Columns, &file, &[], &mut words).expect("a lawful file");
    let (columns, rest) = words.split_at(WORDS_PER_ROW * 65_536);
    let kinds_and_bytes = [columns[..4].to_vec(), columns[65_536..65_540].to_vec()];
    let first = file.len() as u32 - 7;
    assert_eq!(kinds_and_bytes[0], [18, 1, 1, 0]);
    assert_eq!(kinds_and_bytes[1], [first, first + 5, first + 6, 0]);
    assert!(rest.iter().all(|word| *word == 0));
}

/// "Lent the same room, it gives the same answer and holds the same row at each number as 01's table."
#[test]
fn rows_and_columns_hold_the_same_rows() {
    for sample in corpus::samples() {
        for count in [0, 6, 7, 8, 20, 100, WORDS_PER_ROW * 1024 + 5] {
            let mut by_rows = vec![GARBAGE; count];
            let mut by_columns = vec![!GARBAGE; count];
            let answer = load(&sample.bytes, &[], &mut by_rows);
            let label = format!("{} with {count} words", sample.name);
            let columns_answer = load_in(Shape::Columns, &sample.bytes, &[], &mut by_columns);
            assert_eq!(columns_answer, answer, "{label}");
            let rows = Table::new(Shape::Rows, &by_rows);
            let columns = Table::new(Shape::Columns, &by_columns);
            assert_eq!(columns.room(), rows.room(), "{label}");
            for number in 0..rows.room() + 2 {
                assert_eq!(columns.row(number), rows.row(number), "{label}");
            }
        }
    }
}
