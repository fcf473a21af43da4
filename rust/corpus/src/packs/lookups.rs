//! Lookups in tables that no reader left, written out in `literal/lookups.txt` with the answer that each must give.

use crate::literal::{block_lines, line_bytes};

pub struct LookupSample {
    pub name: String,
    pub pack: Vec<u8>,
    /// The words of the table.
    pub table: Vec<u64>,
    pub path: Vec<u8>,
    /// Start and length of the data, nothing if the path is absent.
    pub answer: Option<(u64, u64)>,
}

pub fn samples() -> Vec<LookupSample> {
    let text = include_str!("../../literal/lookups.txt");
    text.split("\n\n").filter_map(sample).collect()
}

/// The sample of a block, unless the block is a comment.
fn sample(block: &str) -> Option<LookupSample> {
    let (name, lines) = block_lines(block)?;
    let (mut pack, mut table, mut path) = (Vec::new(), Vec::new(), Vec::new());
    let mut answer = None;
    for line in lines {
        if let Some(entry) = line.strip_prefix("table ") {
            table.extend(entries(entry));
        } else if let Some(bytes) = line.strip_prefix("path ") {
            path.extend(line_bytes(bytes));
        } else if let Some(found) = line.strip_prefix("= ") {
            answer = Some(data(found));
        } else {
            pack.extend(line_bytes(line));
        }
    }
    Some(LookupSample {
        name: name.to_string(),
        pack,
        table,
        path,
        answer: answer.expect("an answer"),
    })
}

/// The words of an entry, as often as the number behind a star says.
fn entries(line: &str) -> Vec<u64> {
    let (words, count) = line.split_once('*').unwrap_or((line, "1"));
    let words: Vec<u64> = words.split_whitespace().map(number).collect();
    words.repeat(number(count) as usize)
}

fn data(found: &str) -> Option<(u64, u64)> {
    let (start, length) = found.split_once(' ')?;
    Some((number(start), number(length)))
}

fn number(word: &str) -> u64 {
    word.parse().expect("a number")
}
