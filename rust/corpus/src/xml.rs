//! XML to be imported by Req 13, written out in `literal/imports.txt`, with the file or the refusal that each must give.
//!
//! As files a sample is NAME.xml, and its answer NAME.import: the bytes of the file, or a line as `refused 64 at 38`.
//! In its block, lines behind `xml` stand in the XML as they are, lines behind `xml-bytes` in bytes; a line behind `=`
//! is the refusal, and the others are the file's bytes.

use crate::literal::{block_lines, line_bytes, xml_bytes};

pub struct XmlSample {
    pub name: String,
    pub xml: Vec<u8>,
    /// The file, or the refusal's line.
    pub answer: Vec<u8>,
}

impl XmlSample {
    /// The files of the sample, by name.
    pub fn files(&self) -> [(String, Vec<u8>); 2] {
        [
            (format!("{}.xml", self.name), self.xml.clone()),
            (format!("{}.import", self.name), self.answer.clone()),
        ]
    }
}

pub fn samples() -> Vec<XmlSample> {
    let text = include_str!("../literal/imports.txt");
    text.split("\n\n").filter_map(sample).collect()
}

/// The sample of a block, unless the block is a comment.
fn sample(block: &str) -> Option<XmlSample> {
    let (name, lines) = block_lines(block)?;
    let (mut xml, mut answer) = (Vec::new(), Vec::new());
    for line in lines {
        if let Some(bytes) = xml_bytes(line) {
            xml.extend(bytes);
        } else if let Some(refusal) = line.strip_prefix("= ") {
            answer.extend(format!("{refusal}\n").into_bytes());
        } else {
            answer.extend(line_bytes(line));
        }
    }
    assert!(!answer.is_empty(), "{name} has no answer");
    let name = name.to_string();
    Some(XmlSample { name, xml, answer })
}

/// Every XML, with its answer.
pub fn kept_samples() -> Vec<XmlSample> {
    let samples = samples();
    assert!(samples.len() >= 15, "only {} samples", samples.len());
    samples
}
