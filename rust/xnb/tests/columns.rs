//! Req 08: the library's table in columns beside its table by rows.

mod lent;

use corpus::folder::kept_files;
use fuzz::random::Random;
use fuzz::tables::in_columns;
use lent::Lent;
use xnb::raw::{self, LoadAnswer};
use xnb::{Shape, WORDS_PER_ROW};

const FILES: u64 = 30_000;
const TABLES: u64 = 20_000;

/// The answer to a load with so many words lent, and the words that it leaves.
fn loaded(shape: Shape, file: &[u8], garbage: u32, words: usize) -> (LoadAnswer, Vec<u32>) {
    let mut lent = Lent::new(garbage, words);
    let answer = raw::load_table(shape, file, &[], lent.middle());
    let left = lent.middle().to_vec();
    lent.check("the margins", &left);
    (answer, left)
}

/// "Lent the same room, it gives the same answer and holds the same row at each number as 01's table", and words in
/// excess are zero in both; answers the words by rows.
fn compare_loads(name: &str, file: &[u8], garbage: u32, words: usize) -> (u64, Vec<u32>) {
    let label = format!("{name} with {words} words");
    let (answer, by_rows) = loaded(Shape::Rows, file, garbage, words);
    let (columns_answer, columns) = loaded(Shape::Columns, file, !garbage, words);
    assert_eq!(columns_answer, answer, "{label}");
    assert!(columns == in_columns(&by_rows), "{label}: other rows");
    let used = if answer.packed >> 32 == 0 {
        answer.packed as usize
    } else {
        0
    };
    let unused = &by_rows[WORDS_PER_ROW * used..];
    assert!(unused.iter().all(|word| *word == 0), "{label}");
    (answer.packed, by_rows)
}

/// "Lookups over either answer the same": for these rows of words of any content.
fn compare_lookups(name: &str, file: &[u8], by_rows: &[u32], rows: impl IntoIterator<Item = u32>) {
    let columns = in_columns(by_rows);
    for row in rows {
        let answers = |shape, words| {
            (
                raw::part(shape, file, words, row),
                raw::text(shape, file, words, row),
                raw::signed(shape, file, words, row),
                raw::time(shape, file, words, row),
                raw::next(shape, words, row),
            )
        };
        let label = format!("{name}: row {row} of {} words", by_rows.len());
        let expected = answers(Shape::Rows, by_rows);
        assert_eq!(answers(Shape::Columns, &columns), expected, "{label}");
    }
}

/// Some row numbers below the room, those around its end, and far ones of which a multiple is small in 32 bits.
fn some_rows(words: usize) -> impl Iterator<Item = u32> {
    let room = (words / WORDS_PER_ROW).min(xnb::MOST_ROWS) as u32;
    let below = (0..room).step_by(1 + room as usize / 30);
    let around = room.saturating_sub(2)..room + 2;
    let far = [613_566_757, 1 << 31, u32::MAX];
    below.chain(around).chain(far)
}

/// Loads and lookups with the words given, with too few, just enough and too many.
fn compare(name: &str, file: &[u8], words: usize) {
    let garbage = 0xAAAA_AAAA;
    let (answer, by_rows) = compare_loads(name, file, garbage, words);
    compare_lookups(name, file, &by_rows, some_rows(words));
    if answer >> 32 == 0 {
        let just = WORDS_PER_ROW * answer as usize;
        for words in [just - 1, just, just + 1, just + 6, just + 7, just + 20] {
            compare_loads(name, file, garbage, words);
        }
    }
}

#[test]
fn generated_files() {
    let mut refused = 0;
    for seed in 0..FILES {
        let case = fuzz::case(seed);
        compare(&format!("seed {seed}"), &case.bytes, case.words);
        refused += u64::from(raw::load(&case.bytes) >> 32 > 0);
    }
    assert!(
        refused > 5_000 && FILES - refused > 5_000,
        "{refused} refused"
    );
}

#[test]
fn corpus_files() {
    for file in kept_files() {
        for words in [0, 6, 7, 8, 100, 7_173] {
            compare(&file.name, &file.bytes, words);
        }
    }
}

#[test]
fn corpus_files_with_words_for_the_most_rows_and_for_more() {
    for file in kept_files().iter().step_by(20) {
        for words in [
            7 * 65_536 - 1,
            7 * 65_536,
            7 * 65_536 + 1,
            7 * 65_537,
            490_003,
        ] {
            compare(&file.name, &file.bytes, words);
        }
    }
}

#[test]
fn files_at_every_limit() {
    for limit in fuzz::limits::cases() {
        compare(&limit.name, &limit.case.bytes, limit.case.words);
    }
}

#[test]
fn tables_that_no_load_left() {
    for seed in 0..TABLES {
        let mut random = Random::new(seed);
        let count = random.below(20);
        let file = random.bytes(count);
        let length = random.below(90);
        // Small words are kinds, places and lengths more often than large ones.
        let word = |random: &mut Random| match random.below(4) {
            0 => random.number() as u32,
            _ => random.below(23) as u32,
        };
        let words: Vec<u32> = (0..length).map(|_| word(&mut random)).collect();
        compare_lookups(&format!("seed {seed}"), &file, &words, some_rows(length));
    }
}
