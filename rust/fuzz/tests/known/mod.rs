//! The second loader's answer to a case, held to what is known of it.

use fuzz::tables::in_columns;
use fuzz::{Case, Known};
use second::{broken_branch, load, load_in, Loaded, Refusal, Shape, Table, WORDS_PER_ROW};

/// What the second loader answers with a list of enums lent, and the words it leaves.
pub fn answer(case: &Case, enums: &[u8]) -> (Result<Loaded, Refusal>, Vec<u32>) {
    let mut words = vec![0xAAAA_AAAA; case.words];
    let answer = load(&case.bytes, enums, &mut words);
    (answer, words)
}

/// Compares an answer with what is known of the case, and gives the answer.
pub fn check(name: &str, case: &Case, enums: &[u8]) -> Result<Loaded, Refusal> {
    let (answer, words) = answer(case, enums);
    match &case.known {
        Some(Known::Accepted {
            rows,
            readers,
            shared,
            padding,
        }) => {
            let loaded = Loaded {
                rows: rows.len(),
                readers: *readers,
                shared: *shared,
                padding: *padding,
            };
            assert_eq!(answer, Ok(loaded), "{name}");
            assert_eq!(words[..WORDS_PER_ROW * rows.len()], rows.concat(), "{name}");
        }
        Some(Known::Refused { number, place }) => {
            let (number, place) = (*number, *place);
            assert_eq!(answer, Err(Refusal { number, place }), "{name}");
        }
        None => {}
    }
    let used = answer.map_or(0, |loaded| loaded.rows);
    let unused = &words[WORDS_PER_ROW * used..];
    assert!(unused.iter().all(|&word| word == 0), "{name}");
    let rows = Table::new(Shape::Rows, &words);
    assert_eq!(broken_branch(rows, used), None, "{name}");
    // The table in columns has the answer and the rows of the table by rows.
    let mut columns = vec![0x5555_5555; case.words];
    let columns_answer = load_in(Shape::Columns, &case.bytes, enums, &mut columns);
    assert_eq!(columns_answer, answer, "{name}");
    assert!(columns == in_columns(&words), "{name}: other columns");
    let columns = Table::new(Shape::Columns, &columns);
    assert_eq!(broken_branch(columns, used), None, "{name}");
    answer
}
