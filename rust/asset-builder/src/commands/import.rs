//! `import`: a file from the XML of its texts.

use super::export::ITEM;
use super::{counted, unread, Writing};
use crate::input::Input;
use crate::output::{Force, Form, Output};
use crate::refusal::{shown_byte, Told};
use crate::run::{End, Run};
use std::path::PathBuf;
use xnb::xml::{import, Expected, XmlError, XmlRefused};
use xnb::Refusal;

/// Write the file of the texts in XML
///
/// The XML is taken exactly as `export` writes it: nothing is between items, and
/// & < > and " are written &amp; &lt; &gt; and &quot; in a text. Where it differs, the line
/// and the column are reported, what was found there and what is expected. The file is
/// the shortest one with these texts.
/// The output takes its place when it is whole; a file that is there is overwritten
/// only with -f. Refused XML leaves the output as it is; the refusal goes to standard
/// error.
#[derive(clap::Args)]
#[command(verbatim_doc_comment)]
pub struct Import {
    /// XML, or - for standard input
    #[arg(value_name = "IN.xml", value_hint = clap::ValueHint::FilePath)]
    input: PathBuf,

    /// A file, or - for standard output
    #[arg(short, long, value_name = "OUT.xnb", value_hint = clap::ValueHint::FilePath)]
    output: PathBuf,

    #[command(flatten)]
    force: Force,

    /// Print JSON: an object on a line of its own
    #[arg(long)]
    json: bool,
}

impl Import {
    pub fn run(&self, run: &mut Run) -> End {
        let input = Input::of(&self.input);
        let (output, existing) = (Output::of(&self.output), self.force.existing());
        let writing = Writing {
            input: &input,
            output: &output,
            json: self.json,
        };
        if !output.is_free(run, Form::Raw, existing) {
            return writing.unwritten(run, None);
        }
        let xml = match input.read_or_report(run) {
            Ok(xml) => xml,
            Err(why) => return unread(run, &input, &why, self.json),
        };
        let file = match run.progress().during("importing", || import(&xml[..])) {
            Ok(file) => file,
            Err(XmlError::Refused(refused)) => return writing.refused(run, told(&xml, refused)),
            Err(XmlError::OutOfMemory(error)) => {
                run.fail(input.shown(), error);
                return writing.unwritten(run, Some(xml.len()));
            }
        };
        if !input.is_unchanged(run, &xml) || !output.write(run, &file, Form::Raw, existing)? {
            return writing.unwritten(run, Some(xml.len()));
        }
        // A text has no <, so each item has one mark.
        let items = xml.windows(ITEM.len()).filter(|it| *it == ITEM.as_bytes());
        let texts = counted(items.count(), "text", "texts");
        let bytes = counted(file.len(), "byte", "bytes");
        let words = format!("{texts}, a file of {bytes}");
        writing.written_as(run, xml.len(), file.len(), &words)
    }
}

/// A refusal with what was found and what is expected.
fn told(xml: &[u8], refused: XmlRefused) -> Told<'_> {
    let number = refused.refusal.number();
    let told = Told::at_byte(xml, number, refused.place, refused.rule());
    match refused.refusal {
        Refusal::NotExported => told.with_found(what_is_wrong(xml, refused.place as usize)),
        // The place is no byte of the XML that would show anything.
        _ => told.without_bytes(),
    }
}

/// The line and the column, what is there, what is expected, and what people mostly mean.
fn what_is_wrong(xml: &[u8], place: usize) -> String {
    let (line, column) = line_and_column(xml, place);
    let expected = Expected::at(xml, place);
    let found = xml.get(place).copied();
    let shown = found.map_or("the end".to_string(), shown_byte);
    let mut wrong = format!("line {line}, column {column}: found {shown}, expected {expected}");
    if let Some(advice) = advice(xml, expected, found) {
        wrong += "; ";
        wrong += advice;
    }
    wrong
}

/// Lines end with a newline, columns count characters; both from 1.
fn line_and_column(xml: &[u8], place: usize) -> (usize, usize) {
    let before = &xml[..place];
    let lines = before.iter().filter(|byte| **byte == b'\n').count();
    let start = before.iter().rposition(|byte| *byte == b'\n');
    let line = &before[start.map_or(0, |newline| newline + 1)..];
    // A character that is begun before the place is the one at it.
    let characters = line.utf8_chunks().map(|it| it.valid().chars().count());
    (lines + 1, characters.sum::<usize>() + 1)
}

/// What to write instead.
fn advice(xml: &[u8], expected: Expected, found: Option<u8>) -> Option<&'static str> {
    match (expected, found?) {
        (Expected::Entity, _) => Some("& is written as &amp;"),
        (Expected::Text, b'>') => Some("> is written as &gt;"),
        (Expected::Text, b'"') => Some("\" is written as &quot;"),
        (Expected::Text, 0..=0x1F) => Some("a text has no line break and no control character"),
        (Expected::ItemOrEnd { before: 0 } | Expected::End, b' ' | b'\t' | b'\r' | b'\n') => {
            Some("nothing is between items or behind the end, no space and no line break")
        }
        (Expected::Markup { before: 0, .. }, _) if xml.starts_with(b"\xEF\xBB\xBF") => {
            Some("the XML begins with a byte order mark, save it without one")
        }
        _ => None,
    }
}

#[cfg(test)]
mod tests {
    use super::*;

    #[test]
    fn lines_and_columns_count_from_one() {
        let xml = "ab\nü€x\n\n".as_bytes();
        let places = [
            (0, (1, 1)),
            (2, (1, 3)),
            (3, (2, 1)),
            // Inside the first character of the line, and behind it.
            (4, (2, 1)),
            (5, (2, 2)),
            (8, (2, 3)),
            (9, (2, 4)),
            (10, (3, 1)),
            (11, (4, 1)),
        ];
        for (place, expected) in places {
            assert_eq!(line_and_column(xml, place), expected, "{place}");
        }
    }
}
