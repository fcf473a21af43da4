//! The rule of Req 09: how many rows a value has with all below it.

use second::{broken_branch, load_in, next, Shape, Table, WORDS_PER_ROW};

/// The words of these rows, each given by its children, its parent plus 1 and its count, and zeros behind them.
fn table(shape: Shape, rows: &[[u32; 3]], room: usize) -> Vec<u32> {
    let mut words = vec![0; WORDS_PER_ROW * room];
    for (number, [children, parent, count]) in rows.iter().enumerate() {
        let row = [18, 9, 9, *children, *parent, 1, *count];
        for (column, word) in row.into_iter().enumerate() {
            words[shape.place(room, number, column)] = word;
        }
    }
    words
}

/// A name, the rows and the first of them that breaks the rule.
type Case = (&'static str, &'static [[u32; 3]], Option<usize>);

#[test]
fn each_part_of_the_rule_is_judged() {
    let cases: [Case; 14] = [
        ("no row", &[], None),
        ("a row alone", &[[0, 0, 1]], None),
        ("two objects", &[[0, 0, 1], [0, 0, 1]], None),
        (
            "children with children",
            &[[2, 0, 4], [1, 1, 2], [0, 2, 1], [0, 1, 1]],
            None,
        ),
        ("count 0", &[[0, 0, 0]], Some(0)),
        ("count 2 without children", &[[0, 0, 2], [0, 0, 1]], Some(0)),
        (
            "fewer children than named",
            &[[1, 0, 3], [0, 1, 1], [0, 1, 1]],
            Some(0),
        ),
        ("more children than named", &[[2, 0, 2], [0, 1, 1]], Some(0)),
        ("no child named", &[[0, 0, 2], [0, 1, 1]], Some(0)),
        (
            "the first child is not the next row",
            &[[1, 0, 3], [0, 0, 1], [0, 1, 1]],
            Some(0),
        ),
        (
            "a child stands too near",
            &[[2, 0, 3], [0, 1, 2], [0, 1, 1]],
            Some(0),
        ),
        (
            "a child stands too far",
            &[[2, 0, 4], [0, 1, 1], [0, 0, 1], [0, 1, 1]],
            Some(0),
        ),
        (
            "its count ends early",
            &[[2, 0, 2], [0, 1, 1], [0, 1, 1]],
            Some(0),
        ),
        (
            "a child's count is wrong",
            &[[1, 0, 4], [1, 1, 3], [0, 2, 1]],
            Some(1),
        ),
    ];
    for (name, rows, expected) in cases {
        for shape in Shape::BOTH {
            let words = table(shape, rows, rows.len());
            let broken = broken_branch(Table::new(shape, &words), rows.len());
            assert_eq!(broken, expected, "{shape:?}: {name}");
        }
    }
}

#[test]
fn rows_past_the_used_ones_are_no_children() {
    for shape in Shape::BOTH {
        let mut words = table(shape, &[[1, 0, 2], [0, 1, 1]], 4);
        let broken = |words: &[u32]| broken_branch(Table::new(shape, words), 2);
        assert_eq!(broken(&words), None);
        words[shape.place(4, 3, 4)] = 1;
        assert_eq!(broken(&words), Some(0));
        // The used rows do not fit.
        assert_eq!(broken(&table(shape, &[[1, 0, 2]], 1)), Some(0));
        assert_eq!(broken(&[]), Some(0));
    }
}

const ROOM: usize = 1024;

/// The words of a sample, with room for 1,024 rows and three words in excess, and how many rows are used.
fn loaded(shape: Shape, file: &[u8]) -> (Vec<u32>, usize) {
    let mut words = vec![7; WORDS_PER_ROW * ROOM + 3];
    let used = load_in(shape, file, &[], &mut words).map_or(0, |it| it.rows);
    (words, used)
}

#[test]
fn every_table_keeps_the_rule_and_loses_it_with_one_word_changed() {
    for shape in Shape::BOTH {
        let samples = corpus::samples();
        let changed: usize = samples
            .iter()
            .map(|it| change_words(shape, it.name.as_ref(), &it.bytes))
            .sum();
        assert!(changed > 5_000, "only {changed} words");
    }
}

/// Changes counts of children and of rows, one at a time; a large table is tried at some rows only.
fn change_words(shape: Shape, name: &str, file: &[u8]) -> usize {
    let mut changed = 0;
    let (mut words, used) = loaded(shape, file);
    let broken = |words: &[u32]| broken_branch(Table::new(shape, words), used);
    assert_eq!(broken(&words), None, "{shape:?}: {name}");
    for row in (0..used).step_by(1 + used / 20) {
        for column in [3, 6] {
            let word = shape.place(ROOM, row, column);
            for other in [words[word] + 1, words[word].wrapping_sub(1), u32::MAX] {
                let right = std::mem::replace(&mut words[word], other);
                let label = format!("{shape:?}: {name}: row {row}, word {column}");
                assert!(broken(&words).is_some(), "{label}");
                words[word] = right;
                changed += 1;
            }
        }
    }
    changed
}

#[test]
fn next_leads_from_object_to_object_and_to_the_end() {
    for sample in corpus::samples() {
        for shape in Shape::BOTH {
            let (words, used) = loaded(shape, &sample.bytes);
            let table = Table::new(shape, &words);
            let row = |number| table.row(number).expect("a used row");
            let objects = std::iter::successors(Some(0), |row| next(table, *row));
            let objects = objects.take_while(|row| *row < used);
            let without_parent = (0..used).filter(|number| row(*number).parent == 0);
            assert!(objects.eq(without_parent), "{}", sample.name);
            for number in 0..used {
                let behind = number + row(number).rows as usize;
                assert_eq!(next(table, number), Some(behind), "{}", sample.name);
            }
        }
    }
}
