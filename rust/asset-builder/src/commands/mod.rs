//! The commands, each in a module of its own.

mod check;
mod completions;
mod convert;
mod export;
mod image;
mod import;
mod listing;
mod man;
pub mod pack;
mod preview;
mod ranking;
mod report;
mod retype;
mod rows;
mod salvage;
mod shorten;
mod tree;

use crate::input::{Input, Inputs};
use crate::json::{self, Converted, Outcome, Refused, Report};
use crate::output::Output;
use crate::refusal::Told;
use crate::run::{End, Manner, Run, Status};
use clap::builder::TypedValueParser;
use clap::{Parser, Subcommand};
use std::path::Path;
use xnb::{Loader, Table, WORDS_PER_ROW};

/// The rows that the C entry `xnb_load` has room for.
const BUILDER_ROWS: u32 = 1024;
/// The rows that a table has at most.
const MOST_ROWS: u32 = xnb::MOST_ROWS as u32;

const STATUSES: &str = "0 if every file was taken, 1 if one was refused or not found, \
    2 for a wrong command or a file that could not be read or written.";

/// Checks, shows and rewrites XNB files, takes texts to XML and back, and reads, converts, salvages and counts packs of files, through the proved library
#[derive(Parser)]
#[command(name = "asset-builder", version, propagate_version = true)]
#[command(after_help = format!("Exit status: {STATUSES}"))]
pub struct Cli {
    #[command(subcommand)]
    pub command: Command,

    #[command(flatten)]
    pub manner: Manner,
}

#[derive(Subcommand)]
pub enum Command {
    Check(check::Check),
    Rows(rows::Rows),
    Tree(tree::Tree),
    Shorten(shorten::Shorten),
    Retype(retype::Retype),
    Export(export::Export),
    Import(import::Import),
    Image(image::Image),
    Preview(preview::Preview),
    Pack(pack::Pack),
    Mark(convert::Mark),
    Unmark(convert::Unmark),
    Salvage(salvage::Salvage),
    Report(report::Report),
    Completions(completions::Completions),
    Man(man::Man),
}

impl Command {
    pub fn run(&self, run: &mut Run) -> End {
        match self {
            Command::Check(command) => command.run(run),
            Command::Rows(command) => command.run(run),
            Command::Tree(command) => command.run(run),
            Command::Shorten(command) => command.run(run),
            Command::Retype(command) => command.run(run),
            Command::Export(command) => command.run(run),
            Command::Import(command) => command.run(run),
            Command::Image(command) => command.run(run),
            Command::Preview(command) => command.run(run),
            Command::Pack(command) => command.run(run),
            Command::Mark(command) => command.run(run),
            Command::Unmark(command) => command.run(run),
            Command::Salvage(command) => command.run(run),
            Command::Report(command) => command.run(run),
            Command::Completions(command) => command.run(run),
            Command::Man(command) => command.run(run),
        }
    }
}

/// A number of rows that a table may have.
fn at_most_all_rows() -> impl TypedValueParser<Value = u32> {
    clap::value_parser!(u32).range(..=i64::from(MOST_ROWS))
}

/// Reads each input and does something with its bytes; one that cannot be read is reported.
fn for_each(
    inputs: &Inputs,
    run: &mut Run,
    mut action: impl FnMut(&mut Run, &Input, Result<&[u8], String>) -> End,
) -> End {
    let inputs = inputs.list();
    run.progress().expect(inputs.len());
    for input in inputs {
        let file = input.read_file_or_report(run);
        action(run, &input, file.as_deref().map_err(String::clone))?;
        run.progress().step();
    }
    Ok(())
}

/// Loads a file with room for so many rows.
fn load<'f>(loader: Loader, file: &'f [u8], room: u32) -> Result<Table<'f>, xnb::Refused> {
    loader.load_into(file, words_for(file, room))
}

/// Words with room for so many rows, or for all that a file can have.
fn words_for(file: &[u8], room: u32) -> Vec<u32> {
    let rows = file.len().min(room as usize);
    vec![0; WORDS_PER_ROW * rows]
}

/// Reports a file that cannot be read to a program; to people it was reported when it was met.
fn unread(run: &mut Run, input: &Input, why: &str, json: bool) -> End {
    match json {
        true => run.print(&json::unread(input, why)),
        false => Ok(()),
    }
}

/// A file that is read to write another, and where that goes.
struct Writing<'a> {
    input: &'a Input,
    output: &'a Output,
    json: bool,
}

impl Writing<'_> {
    /// Reports the file that was written, with the length of both.
    fn written(&self, run: &mut Run, old: usize, new: usize) -> End {
        self.written_as(run, old, new, &format!("{old} bytes, now {new}"))
    }

    /// Reports the file that was written: to a program with the length of both, to people in these words.
    fn written_as(&self, run: &mut Run, old: usize, new: usize, words: &str) -> End {
        let path = match self.output {
            Output::Standard => Path::new("-"),
            Output::File(path) => path,
        };
        if self.json {
            return self.print(run, Some(old), Outcome::written(path, new));
        }
        let name = self.input.shown();
        match self.output {
            Output::Standard => Ok(()),
            Output::File(_) => run.print_done(&format!("{name}: {words}\n")),
        }
    }

    /// Reports to a program that nothing was written; to people it was reported when it was met.
    fn unwritten(&self, run: &mut Run, old: Option<usize>) -> End {
        let why = run.failure().to_string();
        self.unwritten_since(run, old, &why)
    }

    /// The same for another reason than the last failure.
    fn unwritten_since(&self, run: &mut Run, old: Option<usize>, why: &str) -> End {
        match self.json {
            true => self.print(run, old, Outcome::unwritten(why)),
            false => Ok(()),
        }
    }

    /// Reports that the file is refused.
    fn refused(&self, run: &mut Run, refused: Told) -> End {
        if !self.json {
            tell_refusal(run, self.input, &refused);
            return Ok(());
        }
        run.mark(Status::Refused);
        let line = Report::line(self.input, Refused { refused });
        print_beside(run, self.output, &line)
    }

    fn print(&self, run: &mut Run, bytes: Option<usize>, outcome: Outcome) -> End {
        let line = Report::line(self.input, Converted { bytes, outcome });
        print_beside(run, self.output, &line)
    }
}

/// Prints a report: to standard error where a new file goes to standard output.
fn print_beside(run: &mut Run, output: &Output, report: &str) -> End {
    match output {
        Output::File(_) => run.print(report),
        Output::Standard => {
            run.note(report);
            Ok(())
        }
    }
}

/// So many of a thing.
fn counted(count: usize, one: &str, many: &str) -> String {
    format!("{count} {}", if count == 1 { one } else { many })
}

/// Reports a refusal on standard error.
fn tell_refusal(run: &mut Run, input: &Input, told: &Told) {
    let paint = run.note_paint();
    run.note(&format!(
        "{}: {}",
        paint.name(&input.shown()),
        told.lines(paint)
    ));
    run.mark(Status::Refused);
}
