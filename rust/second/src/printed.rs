//! What the programs `rows` and `shorten` print.

use crate::load::{load, Loaded, BUILDER_ROWS, NO_ENUMS};
use crate::refusal::Refusal;
use crate::rewrite::rewrite;
use crate::row::WORDS_PER_ROW;

/// The longest input that the programs take.
pub const LONGEST_INPUT: usize = 32_768;
/// The answer to a longer input.
pub const INPUT_TOO_LONG: Refusal = Refusal {
    number: 9,
    place: 0,
};

/// What `rows` prints for an input.
pub fn printed_rows(input: &[u8]) -> String {
    printed_rows_with(NO_ENUMS, input)
}

/// What it would print with a list of enums lent.
pub fn printed_rows_with(enums: &[u8], input: &[u8]) -> String {
    let mut words = vec![0; BUILDER_ROWS * WORDS_PER_ROW];
    let answer = if input.len() > LONGEST_INPUT {
        Err(INPUT_TOO_LONG)
    } else {
        load(input, enums, &mut words)
    };
    match answer {
        Ok(loaded) => row_lines(&loaded, &words),
        Err(refusal) => refusal_line(refusal),
    }
}

/// What `shorten` writes for an input: the rewritten file, or a refusal's line.
pub fn shortened(input: &[u8]) -> Vec<u8> {
    let mut words = vec![0; BUILDER_ROWS * WORDS_PER_ROW];
    // A rewritten file is never longer than its input.
    let mut out = vec![0; input.len()];
    let answer = if input.len() > LONGEST_INPUT {
        Err(INPUT_TOO_LONG)
    } else {
        rewrite(input, NO_ENUMS, &mut words, &mut out)
    };
    match answer {
        Ok(length) => out[..length].to_vec(),
        Err(refusal) => refusal_line(refusal).into_bytes(),
    }
}

fn row_lines(loaded: &Loaded, words: &[u32]) -> String {
    let mut lines = format!(
        "rows {} readers {} shared {}\n",
        loaded.rows, loaded.readers, loaded.shared
    );
    let used = words.chunks_exact(WORDS_PER_ROW).take(loaded.rows);
    for (number, row) in used.enumerate() {
        lines += &number.to_string();
        for word in row {
            lines += &format!(" {word}");
        }
        lines += "\n";
    }
    lines
}

/// The line of a refusal.
pub fn refusal_line(refusal: Refusal) -> String {
    format!("refused {} at {}\n", refusal.number, refusal.place)
}
