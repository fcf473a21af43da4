//! A sample: a file, the list of enums that is lent with it, what `rows` must then print for it, and its padding.

use crate::writer::{write, File, Written};

#[derive(Clone)]
pub struct Sample {
    pub name: String,
    /// The folder that keeps it: the literal text that it stands in, or what it shows.
    pub topic: &'static str,
    /// Whether it is written out byte by byte in a literal text.
    pub typed: bool,
    pub bytes: Vec<u8>,
    /// The lent list of enums, as bytes.
    pub enums: Vec<u8>,
    /// The expected output of `rows`.
    pub rows: String,
    /// The padding that must be reported of it, 0 for a refused file.
    pub padding: usize,
    /// What its export as XML must give, where the sample has it: the XML, or a refusal's line.
    pub export: Option<Vec<u8>>,
    /// What the driver's profile must say of it, where the sample has it: `passed`, or a refusal's line.
    pub driver: Option<String>,
    /// Whether tests go through the sample in every way; `further` ones are tried by the second loader alone.
    pub kept: bool,
}

/// Puts samples into a topic.
pub fn in_topic(topic: &'static str, samples: Vec<Sample>) -> impl Iterator<Item = Sample> {
    let of_topic = move |sample| Sample { topic, ..sample };
    samples.into_iter().map(of_topic)
}

impl Sample {
    /// The same sample, used in tests only.
    pub fn further(self) -> Sample {
        Sample {
            kept: false,
            ..self
        }
    }

    /// The same sample with a list of enums lent.
    pub fn lending(self, enums: Vec<u8>) -> Sample {
        Sample { enums, ..self }
    }

    /// The files of the sample, by name.
    ///
    /// NAME.enums stands beside the others unless the list is empty, NAME.padding unless the padding is 0,
    /// and NAME.export and NAME.driver where the sample has its export and the driver's answer.
    pub fn files(&self) -> Vec<(String, Vec<u8>)> {
        let mut files = vec![
            (format!("{}.xnb", self.name), self.bytes.clone()),
            (format!("{}.rows", self.name), self.rows.clone().into()),
        ];
        if !self.enums.is_empty() {
            files.push((format!("{}.enums", self.name), self.enums.clone()));
        }
        if self.padding > 0 {
            let line = format!("{}\n", self.padding);
            files.push((format!("{}.padding", self.name), line.into()));
        }
        if let Some(export) = &self.export {
            files.push((format!("{}.export", self.name), export.clone()));
        }
        if let Some(driver) = &self.driver {
            files.push((format!("{}.driver", self.name), driver.clone().into()));
        }
        files
    }
}

/// A file that must be accepted with the rows as written.
pub fn accepted(name: &str, file: File) -> Sample {
    let written = write(&file);
    Sample {
        name: format!("ok-{name}"),
        topic: "",
        typed: false,
        rows: row_lines(&written),
        padding: written.padding,
        bytes: written.bytes,
        enums: Vec::new(),
        export: None,
        driver: None,
        kept: true,
    }
}

/// A file that must be refused at the place marked in it.
pub fn refused(name: &str, number: u32, file: File) -> Sample {
    let written = write(&file);
    let place = written.fault.expect("a damaged file marks its fault");
    refused_bytes(name, number, place, written.bytes)
}

/// Bytes that must be refused at a place.
pub fn refused_bytes(name: &str, number: u32, place: usize, bytes: Vec<u8>) -> Sample {
    Sample {
        name: format!("bad-{number:02}-{name}"),
        topic: "",
        typed: false,
        rows: refusal_line(number, place),
        padding: 0,
        bytes,
        enums: Vec::new(),
        export: None,
        driver: None,
        kept: true,
    }
}

pub fn refusal_line(number: u32, place: usize) -> String {
    format!("refused {number} at {place}\n")
}

/// What `rows` prints for an accepted file.
pub fn row_lines(written: &Written) -> String {
    let rows = written.rows.len();
    let mut lines = format!(
        "rows {rows} readers {} shared {}\n",
        written.readers, written.shared
    );
    for (number, row) in written.rows.iter().enumerate() {
        let words: Vec<String> = row.iter().map(u32::to_string).collect();
        lines += &format!("{number} {}\n", words.join(" "));
    }
    lines
}
