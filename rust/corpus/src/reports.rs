//! Packs to be counted by Req 14, written out in `literal/reports.txt`, with the report that each must leave.
//!
//! As files a sample is NAME.counted, the pack, and NAME.report, lines as these:
//!
//! ```text
//! enums 0A436F6163682E446F6F7201
//! table 3
//! words 458751
//! before files 18446744073709551615
//! files 7
//! refused-32 1
//! kind-13 2
//! ```
//!
//! `enums` has the lent list in hexadecimal digits (else empty), `table` the words of the pack table (else those of
//! 4,096 files), `words` the words of the row table (else those of 65,536 rows), `before` a figure of the report that
//! is lent (else 0). The other lines are the figures that are left, where they are not 0, or one line as
//! `refused 71 at 0`.

use crate::literal::{block_lines, line_bytes};
use crate::packs::sample::FULL_TABLE;
use crate::writer::WORDS_PER_ROW;

/// The words of a report.
pub const REPORT_WORDS: usize = 132;
/// Words for 65,536 rows.
pub const ROW_WORDS: usize = WORDS_PER_ROW * 65_536;

/// A report: 0 files, 1 accepted, 2 text bytes, 3 image bytes, 4 + n refusals of number n, 68 + k rows of kind k.
pub type Report = [u64; REPORT_WORDS];

/// The report that is left, or a refusal and its place.
pub type ReportAnswer = Result<Report, (u32, u64)>;

pub struct ReportSample {
    pub name: String,
    pub pack: Vec<u8>,
    /// The lines that are kept beside the pack.
    pub lines: String,
}

/// What a sample's lines say.
pub struct Expected {
    pub enums: Vec<u8>,
    pub table: usize,
    pub words: usize,
    pub before: Report,
    pub answer: ReportAnswer,
}

impl ReportSample {
    /// The files of the sample, by name.
    pub fn files(&self) -> [(String, Vec<u8>); 2] {
        [
            (format!("{}.counted", self.name), self.pack.clone()),
            (format!("{}.report", self.name), self.lines.clone().into()),
        ]
    }

    pub fn expected(&self) -> Expected {
        let zero = [0; REPORT_WORDS];
        let mut expected = Expected {
            enums: vec![],
            table: FULL_TABLE,
            words: ROW_WORDS,
            before: zero,
            answer: Ok(zero),
        };
        for line in self.lines.lines() {
            let words: Vec<&str> = line.split(' ').collect();
            match words[..] {
                ["enums", digits] => expected.enums = bytes_of(digits),
                ["table", count] => expected.table = number(count) as usize,
                ["words", count] => expected.words = number(count) as usize,
                ["before", figure, count] => expected.before[word_of(figure)] = number(count),
                ["refused", refusal, "at", place] => {
                    expected.answer = Err((number(refusal) as u32, number(place)));
                }
                [figure, count] => {
                    let report = expected.answer.as_mut().expect("figures alone");
                    report[word_of(figure)] = number(count);
                }
                _ => panic!("{}: {line}", self.name),
            }
        }
        expected
    }
}

fn number(word: &str) -> u64 {
    word.parse().expect("a number")
}

fn bytes_of(digits: &str) -> Vec<u8> {
    let byte = |place| u8::from_str_radix(&digits[place..place + 2], 16).expect("a byte");
    (0..digits.len()).step_by(2).map(byte).collect()
}

/// The word of a report that a figure stands in.
fn word_of(figure: &str) -> usize {
    let numbered = |prefix| Some(number(figure.strip_prefix(prefix)?) as usize);
    match figure {
        "files" => 0,
        "accepted" => 1,
        "text-bytes" => 2,
        "image-bytes" => 3,
        _ => {
            let refusal = numbered("refused-").map(|number| 4 + number);
            let kind = numbered("kind-").map(|kind| 68 + kind);
            refusal.or(kind).expect("a figure")
        }
    }
}

/// The samples: in a block, lines behind `=` are those that are kept, and the others are the pack's bytes.
pub fn samples() -> Vec<ReportSample> {
    let text = include_str!("../literal/reports.txt");
    text.split("\n\n").filter_map(sample).collect()
}

/// The sample of a block, unless the block is a comment.
fn sample(block: &str) -> Option<ReportSample> {
    let (name, block) = block_lines(block)?;
    let (mut pack, mut lines) = (Vec::new(), String::new());
    for line in block {
        match line.strip_prefix("= ") {
            Some(kept) => lines += &format!("{kept}\n"),
            None => pack.extend(line_bytes(line)),
        }
    }
    assert!(!lines.is_empty(), "{name} has no answer");
    let name = name.to_string();
    Some(ReportSample { name, pack, lines })
}

/// Every pack that is to be counted, with its lines.
pub fn kept_samples() -> Vec<ReportSample> {
    let samples = samples();
    assert!(samples.len() >= 8, "only {} samples", samples.len());
    samples
}
