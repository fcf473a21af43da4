//! JSON, one object on a line, as docs/JSON.md says.

use crate::input::Input;
use crate::names::is_printable;
use crate::refusal::Told;
use serde::{Deserialize, Serialize};
use serde_json::ser::{Formatter, Serializer};
use std::io::{self, Write};
use std::os::unix::ffi::OsStrExt;
use std::path::Path;

/// The number of the form that docs/JSON.md describes.
pub const SCHEMA: u32 = 1;

/// A line of any kind: the form's number, then the fields.
#[derive(Serialize)]
pub struct Line<T> {
    schema: u32,
    #[serde(flatten)]
    fields: T,
}

impl<T: Serialize> Line<T> {
    pub fn of(fields: T) -> String {
        line(&Line {
            schema: SCHEMA,
            fields,
        })
    }
}

/// What is reported of a file.
#[derive(Serialize)]
pub struct Report<T> {
    #[serde(flatten)]
    name: Name,
    #[serde(flatten)]
    fields: T,
}

impl<T: Serialize> Report<T> {
    /// A line of a file.
    pub fn line(input: &Input, fields: T) -> String {
        let name = Name::of(input.path());
        Line::of(Report { name, fields })
    }
}

/// The name of a file, and its bytes where it is no text.
#[derive(Clone, Debug, PartialEq, Eq, Serialize, Deserialize)]
pub struct Name {
    pub file: String,
    #[serde(rename = "fileBytes", skip_serializing_if = "Option::is_none")]
    bytes: Option<String>,
}

impl Name {
    pub fn of(path: &Path) -> Name {
        let (file, bytes) = named(path);
        Name { file, bytes }
    }
}

/// The name of a folder, and its bytes where it is no text.
#[derive(Serialize)]
pub struct Folder {
    folder: String,
    #[serde(rename = "folderBytes", skip_serializing_if = "Option::is_none")]
    bytes: Option<String>,
}

impl Folder {
    pub fn of(path: &Path) -> Folder {
        let (folder, bytes) = named(path);
        Folder { folder, bytes }
    }
}

/// A name as text, and its bytes in base64 if they are none.
fn named(path: &Path) -> (String, Option<String>) {
    let bytes = path.as_os_str().as_bytes();
    (path.to_string_lossy().into_owned(), bytes_of_no_text(bytes))
}

/// A file that is refused.
#[derive(Serialize)]
pub struct Refused<'f> {
    pub refused: Told<'f>,
}

/// A file that cannot be found or read.
#[derive(Serialize)]
struct Unread {
    unread: Why,
}

/// Why something was not done.
#[derive(Serialize)]
pub struct Why {
    pub why: String,
}

impl Why {
    pub fn of(why: impl ToString) -> Why {
        let why = why.to_string();
        Why { why }
    }
}

/// The line of a file that cannot be read.
pub fn unread(input: &Input, why: &str) -> String {
    let unread = Why::of(why);
    Report::line(input, Unread { unread })
}

/// What came of an output.
#[derive(Serialize)]
#[serde(rename_all = "lowercase")]
pub enum Outcome {
    Written(NewFile),
    Unwritten(Why),
}

impl Outcome {
    pub fn written(path: &Path, bytes: usize) -> Outcome {
        let name = Name::of(path);
        Outcome::Written(NewFile { name, bytes })
    }

    pub fn unwritten(why: impl ToString) -> Outcome {
        Outcome::Unwritten(Why::of(why))
    }
}

/// A file that was written, with its length.
#[derive(Serialize)]
pub struct NewFile {
    #[serde(flatten)]
    name: Name,
    bytes: usize,
}

/// A file that was read to write another.
#[derive(Serialize)]
pub struct Converted {
    /// The length of the file that was read, if it was.
    #[serde(skip_serializing_if = "Option::is_none")]
    pub bytes: Option<usize>,
    #[serde(flatten)]
    pub outcome: Outcome,
}

/// Bytes in base64 if they are no text.
pub fn bytes_of_no_text(bytes: &[u8]) -> Option<String> {
    let is_text = std::str::from_utf8(bytes).is_ok();
    (!is_text).then(|| base64::encode(bytes))
}

/// The value on a line of its own, with no control character in it.
fn line(value: &impl Serialize) -> String {
    let mut out = Vec::new();
    let mut serializer = Serializer::with_formatter(&mut out, Plain);
    value
        .serialize(&mut serializer)
        .expect("a value of ours is JSON");
    out.push(b'\n');
    String::from_utf8(out).expect("JSON is text")
}

/// As compact as can be, with an escape for whatever a terminal might not show.
struct Plain;

impl Formatter for Plain {
    fn write_string_fragment<W: ?Sized + Write>(
        &mut self,
        out: &mut W,
        text: &str,
    ) -> io::Result<()> {
        for character in text.chars() {
            let mut units = [0; 2];
            if is_printable(character) {
                write!(out, "{character}")?;
                continue;
            }
            for unit in character.encode_utf16(&mut units) {
                write!(out, "\\u{unit:04x}")?;
            }
        }
        Ok(())
    }
}

#[cfg(test)]
mod tests {
    use super::*;

    #[test]
    fn control_characters_are_escaped() {
        let text = "a\"\\\n\x1B\x7F\u{9B}\u{E0001}ü";
        let json = line(&text);
        assert_eq!(
            json,
            "\"a\\\"\\\\\\n\\u001b\\u007f\\u009b\\udb40\\udc01ü\"\n"
        );
        assert_eq!(serde_json::from_str::<String>(&json).expect("JSON"), text);
    }
}
