//! Req 12 over generated files: the places of texts, held to the second loader.

use fuzz::random::Random;
use fuzz::retyped::{case, retyped, TextCase};
use second::{Shape, Table, WORDS_PER_ROW};
use std::ops::Range;

const STRING: u32 = 13;
const FILES: u64 = 10_000;

/// The texts of the String rows of an accepted file, in file order.
fn string_rows(case: &TextCase) -> Option<Vec<Range<usize>>> {
    let mut words = vec![0; case.words];
    let loaded = second::load(&case.bytes, &case.enums, &mut words).ok()?;
    let table = Table::new(Shape::Rows, &words);
    let rows = (0..loaded.rows).filter(|row| words[WORDS_PER_ROW * row] == STRING);
    let place = |row| {
        let text = second::text(&case.bytes, table, row).expect("a String has a text");
        let start = text.as_ptr().addr() - case.bytes.as_ptr().addr();
        start..start + text.len()
    };
    Some(rows.map(place).collect())
}

#[test]
fn the_texts_of_accepted_files_are_their_string_rows() {
    let (mut files, mut strings) = (0, 0);
    for seed in 0..FILES {
        let case = case(seed);
        let Some(texts) = string_rows(&case) else {
            continue;
        };
        for text in &case.texts {
            assert!(texts.contains(text), "seed {seed}: {text:?} of {texts:?}");
        }
        if case.all_texts {
            assert_eq!(texts, case.texts, "seed {seed}");
            files += 1;
            strings += texts.len();
        }
    }
    println!("{files} files, {strings} texts");
    assert!(files > 2_000 && strings > 3_000);
}

/// The second loader answers alike for both files of a pair, and leaves the same words.
#[test]
fn retyped_files_give_the_same_answers() {
    for seed in 0..FILES {
        let case = case(seed);
        let new = retyped(&mut Random::new(!seed), &case.bytes, &case.texts);
        let reported = |file| {
            let mut words = vec![1; case.words];
            let answer = second::load(file, &case.enums, &mut words);
            (answer, words)
        };
        assert_eq!(reported(&new), reported(&case.bytes), "seed {seed}");
    }
}
