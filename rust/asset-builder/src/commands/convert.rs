//! `mark` and `unmark`: a pack from one form to the other.

use super::{unread, Writing};
use crate::input::Input;
use crate::output::{is_same_place, Existing, Force, Form, Output};
use crate::refusal::Told;
use crate::room::Room;
use crate::run::{End, Run};
use std::path::PathBuf;
use xnb::marks;
use xnb::pack::PackRefused;

/// Write a pack with the mark FD FE before each file record
///
/// The output takes its place when it is whole. A file that is there is overwritten
/// only with -f, or if it is the input, named as both IN and OUT.
/// A refused pack leaves the output as it is; the refusal goes to standard error.
#[derive(clap::Args)]
#[command(verbatim_doc_comment)]
pub struct Mark {
    #[command(flatten)]
    places: Places,
}

/// Write a marked pack without its marks
///
/// The output takes its place when it is whole. A file that is there is overwritten
/// only with -f, or if it is the input, named as both IN and OUT.
/// A refused pack leaves the output as it is; the refusal goes to standard error.
#[derive(clap::Args)]
#[command(verbatim_doc_comment)]
pub struct Unmark {
    #[command(flatten)]
    places: Places,
}

#[derive(clap::Args)]
struct Places {
    /// A pack, or - for standard input
    #[arg(value_name = "IN", value_hint = clap::ValueHint::FilePath)]
    input: PathBuf,

    /// A file, which may be the input by its own name, or - for standard output
    #[arg(short, long, value_name = "OUT", value_hint = clap::ValueHint::FilePath)]
    output: PathBuf,

    #[command(flatten)]
    force: Force,

    /// Print JSON: an object on a line of its own
    #[arg(long)]
    json: bool,
}

/// Converts a pack into a given output, and answers the length of the new one.
type Conversion = fn(&[u8], &mut [u8]) -> Result<usize, PackRefused>;

impl Mark {
    pub fn run(&self, run: &mut Run) -> End {
        self.places.convert(run, false, marks::mark_into)
    }
}

impl Unmark {
    pub fn run(&self, run: &mut Run) -> End {
        self.places.convert(run, true, marks::unmark_into)
    }
}

impl Places {
    /// Writes what the conversion makes of the input; a refusal is reported.
    fn convert(&self, run: &mut Run, is_marked: bool, conversion: Conversion) -> End {
        let input = Input::of(&self.input);
        let (output, existing) = (Output::of(&self.output), self.existing());
        let writing = Writing {
            input: &input,
            output: &output,
            json: self.json,
        };
        if !output.is_free(run, Form::Raw, existing) {
            return writing.unwritten(run, None);
        }
        let pack = match input.read_or_report(run) {
            Ok(pack) => pack,
            Err(why) => return unread(run, &input, &why, self.json),
        };
        // Enough for both forms, also where the pack changes while it is read.
        let length = marks::longest(&pack);
        let mut room = match Room::new(length, output.folder().as_deref()) {
            Ok(room) => room,
            Err(error) => {
                run.fail(input.shown(), error);
                return writing.unwritten(run, Some(pack.len()));
            }
        };
        let convert = || conversion(&pack, &mut room);
        let new = match run.progress().during("converting", convert) {
            Ok(new) => new,
            Err(refused) => return writing.refused(run, Told::of_pack(&pack, refused, is_marked)),
        };
        if !input.is_unchanged(run, &pack) || !output.write_room(run, room, new, existing)? {
            return writing.unwritten(run, Some(pack.len()));
        }
        writing.written(run, pack.len(), new)
    }

    /// A pack may be converted in its own place without more words.
    fn existing(&self) -> Existing {
        match self.force.existing() {
            Existing::Keep if is_same_place(&self.input, &self.output) => Existing::Replace,
            asked => asked,
        }
    }
}
