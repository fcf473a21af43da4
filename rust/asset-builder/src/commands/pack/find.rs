//! `pack find`: the data of one file.

use super::near::near;
use super::{note_marked, tell_unopened, PackForm};
use crate::input::Input;
use crate::names::shown;
use crate::output::{Force, Form, Output};
use crate::run::{End, Run, Status};
use std::ffi::OsString;
use std::os::unix::ffi::OsStrExt;
use std::path::PathBuf;

/// Write the data of the file with this path
///
/// Letters A to Z match in both cases, all other bytes as they are, and the first
/// file that matches is taken. If none does, nothing is written and the status is 1.
/// A file that is there is overwritten only with -f, and a terminal gets raw bytes
/// only with -f.
#[derive(clap::Args)]
#[command(verbatim_doc_comment)]
pub struct Find {
    /// A pack, or - for standard input
    #[arg(value_name = "PACK", value_hint = clap::ValueHint::FilePath)]
    pack: PathBuf,

    /// The path of a file in it
    #[arg(value_name = "PATH")]
    path: OsString,

    /// A file, or - for standard output
    #[arg(short, long, value_name = "OUT", default_value = "-", value_hint = clap::ValueHint::FilePath)]
    output: PathBuf,

    #[command(flatten)]
    force: Force,

    #[command(flatten)]
    form: PackForm,
}

impl Find {
    pub fn run(&self, run: &mut Run) -> End {
        let input = Input::of(&self.pack);
        let output = Output::of(&self.output);
        let existing = self.force.existing();
        let Ok(bytes) = input.read_or_report(run) else {
            return Ok(());
        };
        let opened = match self.form.open(&bytes) {
            Ok(opened) => opened,
            Err(why) => return tell_unopened(run, &input, why, false),
        };
        note_marked(run, &input, &opened);
        let Some(data) = opened.pack.find(self.path.as_bytes()) else {
            let (pack, path) = (input.shown(), shown(&self.path));
            let near = near(&self.path, &opened.files);
            let near = near.map_or(String::new(), |it| format!("; {} is near", shown(it)));
            run.note(&format!("{pack}: {path}: no file has this path{near}\n"));
            run.mark(Status::Refused);
            return Ok(());
        };
        let check = || bytes.check_unchanged();
        let write = output.write_checked(run, data, Form::Raw, existing, check);
        write.map(|_| ())
    }
}
