//! Samples that are written out byte by byte, with what `rows` must print for them.
//!
//! Each stands in a text of `literal/` as document 000 or 01 says it; no code and no table made it.
//! A text has blocks between empty lines. `#` starts a comment, often the rule that the blocks below it show.
//! The first line of a block is the sample's name, lines behind `=` are what `rows` must print, a line behind `padding`
//! is the padding that must be reported of it (0 without such a line), lines behind `enums` are the bytes of the list of
//! enums that is lent (empty without such a line), and the others are the file's bytes: two hexadecimal digits for a byte,
//! `AA*60` for sixty of them, and characters in quotation marks.
//! Lines behind `xml` and `xml-bytes` are the XML that the file's export must give, the former as it stands and the
//! latter in bytes; a line behind `export` is the refusal of the export. A line behind `driver` is what the driver's
//! profile says of the file, `passed` or a refusal.

use crate::sample::{in_topic, Sample};

/// The texts, by topic.
const TEXTS: &[(&str, &str)] = &[
    ("header", include_str!("../literal/header.txt")),
    ("numbers", include_str!("../literal/numbers.txt")),
    ("padding", include_str!("../literal/padding.txt")),
    ("names", include_str!("../literal/names.txt")),
    ("kinds", include_str!("../literal/kinds.txt")),
    ("arguments", include_str!("../literal/arguments.txt")),
    ("values", include_str!("../literal/values.txt")),
    ("textures", include_str!("../literal/textures.txt")),
    ("meshes", include_str!("../literal/meshes.txt")),
    ("orders", include_str!("../literal/orders.txt")),
    ("exports", include_str!("../literal/exports.txt")),
    ("driver", include_str!("../literal/driver.txt")),
    ("retyped", include_str!("../literal/retyped.txt")),
];

pub fn samples() -> Vec<Sample> {
    let samples = |(topic, text): &(&'static str, &str)| samples_of(topic, text);
    TEXTS.iter().flat_map(samples).collect()
}

/// The samples of a text.
pub fn samples_of(topic: &'static str, text: &str) -> Vec<Sample> {
    let samples = text.split("\n\n").filter_map(sample).collect();
    in_topic(topic, samples).collect()
}

/// The name and the other lines of a block, unless the block is a comment.
pub fn block_lines(block: &str) -> Option<(&str, impl Iterator<Item = &str>)> {
    let lines = block.lines().filter(|line| !line.starts_with('#'));
    let mut lines = lines.skip_while(|line| line.is_empty());
    Some((lines.next()?, lines))
}

/// The sample of a block, unless the block is a comment.
fn sample(block: &str) -> Option<Sample> {
    let (name, lines) = block_lines(block)?;
    let name = name.to_string();
    let mut bytes = Vec::new();
    let mut enums = Vec::new();
    let mut rows = String::new();
    let mut padding = 0;
    let mut export: Option<Vec<u8>> = None;
    let mut driver = None;
    for line in lines {
        if let Some(printed) = line.strip_prefix("= ") {
            rows += &format!("{printed}\n");
        } else if let Some(xml) = xml_bytes(line) {
            export.get_or_insert_default().extend(xml);
        } else if let Some(refusal) = line.strip_prefix("export ") {
            export = Some(format!("{refusal}\n").into());
        } else if let Some(answer) = line.strip_prefix("driver ") {
            driver = Some(format!("{answer}\n"));
        } else if let Some(entries) = line.strip_prefix("enums ") {
            enums.extend(line_bytes(entries));
        } else if let Some(number) = line.strip_prefix("padding ") {
            padding = number.parse().expect("a number of bytes");
        } else {
            bytes.extend(line_bytes(line));
        }
    }
    assert!(!rows.is_empty(), "{name} has no expected rows");
    Some(Sample {
        name,
        topic: "",
        typed: true,
        bytes,
        enums,
        rows,
        padding,
        export,
        driver,
        kept: true,
    })
}

/// The bytes of a line of XML.
pub fn xml_bytes(line: &str) -> Option<Vec<u8>> {
    match line.strip_prefix("xml ") {
        Some(text) => Some(text.as_bytes().to_vec()),
        None => line.strip_prefix("xml-bytes ").map(line_bytes),
    }
}

/// The bytes of a line: what stands in quotation marks, and numbers between.
pub fn line_bytes(line: &str) -> Vec<u8> {
    let mut bytes = Vec::new();
    for (position, part) in line.split('"').enumerate() {
        if position % 2 == 1 {
            bytes.extend_from_slice(part.as_bytes());
        } else {
            bytes.extend(part.split_whitespace().flat_map(word_bytes));
        }
    }
    bytes
}

/// One byte, or as many of it as stands behind a star.
fn word_bytes(word: &str) -> Vec<u8> {
    let (digits, count) = word.split_once('*').unwrap_or((word, "1"));
    let byte = u8::from_str_radix(digits, 16).expect("a byte in hexadecimal digits");
    assert_eq!(digits.len(), 2, "{word}");
    vec![byte; count.parse().expect("a number of bytes")]
}
