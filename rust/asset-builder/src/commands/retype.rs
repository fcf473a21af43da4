//! `retype`: a file with another text of the same length in the place of one of its texts.

use super::{counted, load, unread, Writing, MOST_ROWS};
use crate::enums::Enums;
use crate::input::Input;
use crate::names::shown_text;
use crate::output::{is_same_place, Existing, Force, Form, Output};
use crate::refusal::Told;
use crate::run::{End, Run};
use std::path::PathBuf;
use xnb::{Loader, Row, Table};

/// Write a file with another text in the place of one of its texts
///
/// The new text takes as many bytes as the old one, counted in UTF-8; every other
/// byte stays. The new file is loaded and has the same rows: typed text never steers
/// the loader. `rows` and `tree --json` say which row a text has.
/// The output takes its place when it is whole. A file that is there is overwritten
/// only with -f, or if it is the input, named as both FILE and OUT.
/// A refused file leaves the output as it is; the refusal goes to standard error.
#[derive(clap::Args)]
#[command(verbatim_doc_comment)]
pub struct Retype {
    /// A file, or - for standard input
    #[arg(value_name = "FILE", value_hint = clap::ValueHint::FilePath)]
    input: PathBuf,

    /// The row number of a String
    #[arg(long, value_name = "N")]
    row: u32,

    /// The new text
    #[arg(long, value_name = "T", allow_hyphen_values = true)]
    text: String,

    /// A file, which may be the input by its own name, or - for standard output
    #[arg(short, long, value_name = "OUT", value_hint = clap::ValueHint::FilePath)]
    output: PathBuf,

    #[command(flatten)]
    force: Force,

    #[command(flatten)]
    enums: Enums,

    /// Print JSON: an object on a line of its own
    #[arg(long)]
    json: bool,
}

/// A file with another text.
struct Retyped<'f> {
    old: &'f str,
    new: Vec<u8>,
    /// The number of rows of both files.
    rows: usize,
}

/// Why there is no such file.
enum Wrong<'f> {
    Refused(Box<Told<'f>>),
    /// What is wrong with the text.
    Text(String),
}

impl Retype {
    pub fn run(&self, run: &mut Run) -> End {
        let input = Input::of(&self.input);
        let (output, existing) = (Output::of(&self.output), self.existing());
        let writing = Writing {
            input: &input,
            output: &output,
            json: self.json,
        };
        if !output.is_free(run, Form::Raw, existing) {
            return writing.unwritten(run, None);
        }
        let Some(enums) = self.enums.read_beside(input.is_stdin(), run) else {
            return Ok(());
        };
        let loader = Loader::new().with_enums(&enums);
        let file = match input.read_file_or_report(run) {
            Ok(file) => file,
            Err(why) => return unread(run, &input, &why, self.json),
        };
        let retyped = match self.retyped(loader, &file) {
            Ok(retyped) => retyped,
            Err(Wrong::Refused(told)) => return writing.refused(run, *told),
            Err(Wrong::Text(why)) => {
                run.fail(format!("{}: row {}", input.shown(), self.row), why);
                return writing.unwritten(run, Some(file.len()));
            }
        };
        if !output.write(run, &retyped.new, Form::Raw, existing)? {
            return writing.unwritten(run, Some(file.len()));
        }
        let words = self.words(&retyped);
        writing.written_as(run, file.len(), retyped.new.len(), &words)
    }

    /// The file with the new text, which loads as the file does.
    fn retyped<'f>(&self, loader: Loader, file: &'f [u8]) -> Result<Retyped<'f>, Wrong<'f>> {
        let refused = |refused| {
            let told = Told::of_file(loader, file, refused, MOST_ROWS as usize);
            Wrong::Refused(Box::new(told))
        };
        let table = load(loader, file, MOST_ROWS).map_err(refused)?;
        let no_text = |refused| {
            let told = Told::of_row(refused, self.what_is_there(&table));
            Wrong::Refused(Box::new(told))
        };
        let old = table.text(self.row).map_err(no_text)?;
        if self.text.len() != old.len() {
            let (has, given) = (bytes(old), bytes(&self.text));
            let why = format!("its text has {has}, the one given has {given}");
            return Err(Wrong::Text(why));
        }
        let row = table.row(self.row).expect("a row with a text");
        let new = with_text(file, &row, &self.text);
        if !loads_alike(loader, &table, &new) {
            let why = "the file with the new text loads otherwise; nothing is written";
            return Err(Wrong::Text(why.to_string()));
        }
        let rows = table.loaded().rows;
        Ok(Retyped { old, new, rows })
    }

    /// What is reported to people.
    fn words(&self, retyped: &Retyped) -> String {
        let (old, new) = (shown_text(retyped.old, '"'), shown_text(&self.text, '"'));
        let rows = counted(retyped.rows, "row", "rows");
        let row = self.row;
        format!("row {row}: \"{old}\", now \"{new}\"; {rows} as before")
    }

    /// What the file has in place of a String in the row.
    fn what_is_there(&self, table: &Table) -> String {
        match table.row(self.row) {
            Some(row) => format!("row {} is of kind {}, not String", self.row, row.kind),
            None => format!(
                "the file has {}",
                counted(table.loaded().rows, "row", "rows")
            ),
        }
    }

    /// A file may be retyped in its own place without more words.
    fn existing(&self) -> Existing {
        match self.force.existing() {
            Existing::Keep if is_same_place(&self.input, &self.output) => Existing::Replace,
            asked => asked,
        }
    }
}

/// So many bytes.
fn bytes(text: &str) -> String {
    counted(text.len(), "byte", "bytes")
}

/// The file with this text at the end of a row's part, in place of its own text of the same length.
fn with_text(file: &[u8], row: &Row, text: &str) -> Vec<u8> {
    let end = row.first + row.length;
    let mut new = file.to_vec();
    new[end - text.len()..end].copy_from_slice(text.as_bytes());
    new
}

/// Whether the new file has the same answer and the same rows.
fn loads_alike(loader: Loader, table: &Table, new: &[u8]) -> bool {
    load(loader, new, MOST_ROWS)
        .is_ok_and(|new| new.loaded() == table.loaded() && new.words() == table.words())
}
