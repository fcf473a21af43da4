//! `export`: the texts of a file as XML.

use super::{counted, load, unread, Writing, MOST_ROWS};
use crate::enums::Enums;
use crate::input::Input;
use crate::names::escaped;
use crate::output::{Force, Form, Output};
use crate::refusal::Told;
use crate::run::{End, Run};
use std::path::PathBuf;
use xnb::Refusal::{NotInXml, NotTextArray, NullText};
use xnb::{FileError, Kind, Loader, Refused, Table};

/// The mark before each text.
pub const ITEM: &str = "<Item>";

/// Write the texts of a file as XML, for translators
///
/// The file's primary object is an Array of String, and it has no shared objects.
/// Each text is written between <Item> and </Item>, with nothing between items; the
/// characters & < > and " are written &amp; &lt; &gt; and &quot;. `import` takes the XML
/// back. The output takes its place when it is whole; a file that is there is
/// overwritten only with -f. A refused file leaves the output as it is; the refusal
/// goes to standard error.
#[derive(clap::Args)]
#[command(verbatim_doc_comment)]
pub struct Export {
    /// A file, or - for standard input
    #[arg(value_name = "FILE", value_hint = clap::ValueHint::FilePath)]
    input: PathBuf,

    /// A file, or - for standard output
    #[arg(short, long, value_name = "OUT.xml", value_hint = clap::ValueHint::FilePath)]
    output: PathBuf,

    #[command(flatten)]
    force: Force,

    #[command(flatten)]
    enums: Enums,

    /// Print JSON: an object on a line of its own
    #[arg(long)]
    json: bool,
}

impl Export {
    pub fn run(&self, run: &mut Run) -> End {
        let input = Input::of(&self.input);
        let (output, existing) = (Output::of(&self.output), self.force.existing());
        let writing = Writing {
            input: &input,
            output: &output,
            json: self.json,
        };
        // A text may hold what a terminal takes for a command.
        if !output.is_free(run, Form::Raw, existing) {
            return writing.unwritten(run, None);
        }
        let Some(enums) = self.enums.read_beside(input.is_stdin(), run) else {
            return Ok(());
        };
        let loader = Loader::new().with_enums(&enums);
        let file = match input.read_file_or_report(run) {
            Ok(file) => file,
            Err(why) => return unread(run, &input, &why, self.json),
        };
        let xml = match loader.export_xml(&file) {
            Ok(xml) => xml,
            Err(FileError::Refused(refused)) => {
                return writing.refused(run, told(loader, &file, refused));
            }
            Err(FileError::OutOfMemory(error)) => {
                run.fail(input.shown(), error);
                return writing.unwritten(run, Some(file.len()));
            }
        };
        if !output.write(run, xml.as_bytes(), Form::Raw, existing)? {
            return writing.unwritten(run, Some(file.len()));
        }
        let texts = counted(xml.matches(ITEM).count(), "text", "texts");
        let bytes = counted(xml.len(), "byte", "bytes");
        let words = format!("{texts}, {bytes} of XML");
        writing.written_as(run, file.len(), xml.len(), &words)
    }
}

/// A refusal with what was found.
fn told<'f>(loader: Loader, file: &'f [u8], refused: Refused) -> Told<'f> {
    let table = match refused.refusal {
        NotTextArray | NullText | NotInXml => load(loader, file, MOST_ROWS).ok(),
        _ => None,
    };
    match table {
        Some(table) if refused.refusal == NotTextArray => {
            let told = Told::of_file(loader, file, refused, MOST_ROWS as usize);
            told.with_found(what_is_exported(&table))
        }
        Some(table) => Told::of_row(refused, what_is_in_the_text(&table, refused.place)),
        None => Told::of_file(loader, file, refused, MOST_ROWS as usize),
    }
}

/// What the file has in place of a list of texts.
fn what_is_exported(table: &Table) -> String {
    let primary = table.row(0).expect("the primary object");
    match (primary.kind, table.loaded().shared) {
        (Kind::Array, 0) => "the primary object is an Array of another type".to_string(),
        (Kind::Array, shared) => {
            let shared = counted(shared, "shared object", "shared objects");
            format!("the file has {shared}")
        }
        (kind, _) => format!("the primary object is of kind {kind}"),
    }
}

/// What a text has that XML cannot hold.
fn what_is_in_the_text(table: &Table, row: u32) -> String {
    let number = counted_from_one(row);
    let Ok(text) = table.text(row) else {
        return format!("the {number} text is null");
    };
    let bad = |it: &(usize, char)| it.1 < ' ' || matches!(it.1, '\u{FFFE}' | '\u{FFFF}');
    match text.chars().enumerate().find(bad) {
        Some((place, character)) => {
            let code = u32::from(character);
            let (place, text) = (place + 1, escaped(text.as_bytes()));
            format!("the {number} text has U+{code:04X} as character {place}: \"{text}\"")
        }
        None => format!("the {number} text"),
    }
}

/// The number of a row below the primary object: text 1 is row 1.
fn counted_from_one(row: u32) -> String {
    let ending = match (row % 10, row % 100) {
        (_, 11..=13) => "th",
        (1, _) => "st",
        (2, _) => "nd",
        (3, _) => "rd",
        _ => "th",
    };
    format!("{row}{ending}")
}
