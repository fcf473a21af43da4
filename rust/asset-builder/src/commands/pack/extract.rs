//! `pack extract`: every file of a pack, below a folder.

use super::place::{make_place, parts};
use super::{note_marked, tell_unopened, Opened, PackForm, Stored};
use crate::commands::unread;
use crate::input::Input;
use crate::json::{Folder, Outcome, Report};
use crate::names::shown;
use crate::output::{write_pieces, Force, Part};
use crate::run::{End, Run, Status, Stop};
use crate::system::sync_file_system;
use serde::Serialize;
use std::collections::HashSet;
use std::fs::{self, File};
use std::io;
use std::path::{Path, PathBuf};

/// Write every file of a pack below a folder
///
/// Both / and \ separate folders. A path with an empty part, a part . or .., a drive
/// letter, a leading separator or a byte below 20 hex is reported and not written;
/// of paths that match as `pack find` matches, or that name one place, the first
/// is written and the others are reported. The status is then 1.
/// Each output takes its place when it is whole, and a file that is there is
/// overwritten only with -f; nothing is written through a link below the folder.
/// At the end all files and folders are put on the disk at once.
#[derive(clap::Args)]
#[command(verbatim_doc_comment)]
pub struct Extract {
    /// A pack, or - for standard input
    #[arg(value_name = "PACK", value_hint = clap::ValueHint::FilePath)]
    pack: PathBuf,

    /// The folder, which is made if it is not there
    #[arg(short, long, value_name = "FOLDER", value_hint = clap::ValueHint::DirPath)]
    output: PathBuf,

    #[command(flatten)]
    force: Force,

    #[command(flatten)]
    form: PackForm,

    /// Print JSON: an object on a line of its own
    #[arg(long)]
    json: bool,
}

/// What is reported of a pack.
#[derive(Serialize)]
struct Extracted {
    /// The pack's length.
    bytes: usize,
    marked: bool,
    #[serde(flatten)]
    folder: Folder,
    files: Vec<Extraction>,
}

/// What came of a file.
#[derive(Serialize)]
struct Extraction {
    path: String,
    /// The length of its data.
    bytes: u64,
    #[serde(flatten)]
    outcome: Outcome,
}

impl Extract {
    pub fn run(&self, run: &mut Run) -> End {
        let input = Input::of(&self.pack);
        let bytes = match input.read_or_report(run) {
            Ok(bytes) => bytes,
            Err(why) => return unread(run, &input, &why, self.json),
        };
        let opened = match self.form.open(&bytes) {
            Ok(opened) => opened,
            Err(why) => return tell_unopened(run, &input, why, self.json),
        };
        note_marked(run, &input, &opened);
        let made = fs::create_dir_all(&self.output);
        let folder = made.and_then(|()| fs::canonicalize(&self.output));
        let folder = folder.map_err(|error| {
            let output = shown(&self.output);
            Stop::Failed(format!("{output}: {error}"))
        })?;
        let files = self.write(run, &input, &opened, &folder);
        let sync = || File::open(&folder).and_then(|folder| sync_file_system(&folder));
        if let Err(error) = run.progress().during("syncing", sync) {
            run.fail(shown(&self.output), error);
        }
        input.is_unchanged(run, &bytes);
        if self.json {
            let extracted = Extracted {
                bytes: bytes.len(),
                marked: opened.marked,
                folder: Folder::of(&self.output),
                files,
            };
            return run.print(&Report::line(&input, extracted));
        }
        let (all, output) = (opened.files.len(), shown(&self.output));
        let is_written = |it: &&Extraction| matches!(it.outcome, Outcome::Written(_));
        let written = files.iter().filter(is_written).count();
        run.print_done(&format!(
            "{}: {written} of {all} files written to {output}\n",
            input.shown()
        ))
    }

    /// Writes the files below a folder and answers what came of each; one that is not written is reported.
    fn write(
        &self,
        run: &mut Run,
        input: &Input,
        opened: &Opened,
        folder: &Path,
    ) -> Vec<Extraction> {
        let mut taken = HashSet::new();
        let mut outcomes = Vec::new();
        let all = opened.files.iter().map(|file| file.length);
        run.progress().expect_bytes(all.sum());
        for file in &opened.files {
            let outcome = match parts_of(opened, file, &mut taken) {
                Ok(parts) => match self.write_whole(run, folder, &parts, opened.data(file)) {
                    Ok(remark) => {
                        if let Some(remark) = remark {
                            run.remark(&format!("{}: {remark}\n", name(input, file)));
                        }
                        let path = self.output.join(parts.join("/"));
                        Outcome::written(&path, file.length as usize)
                    }
                    Err(error) => {
                        run.fail(name(input, file), &error);
                        Outcome::unwritten(error)
                    }
                },
                Err(why) => {
                    let name = name(input, file);
                    run.note(&format!("{name}: not written, {why}\n"));
                    run.mark(Status::Refused);
                    Outcome::unwritten(why)
                }
            };
            outcomes.push(Extraction {
                path: file.path.clone(),
                bytes: file.length,
                outcome,
            });
        }
        run.progress().clear();
        outcomes
    }

    /// Writes a file, and answers what there is to remark.
    fn write_whole(
        &self,
        run: &mut Run,
        folder: &Path,
        parts: &[&str],
        data: &[u8],
    ) -> io::Result<Option<String>> {
        let place = make_place(folder, parts)?;
        let mut file = Part::at(place, self.force.existing())?;
        write_pieces(&mut file, data, run.progress())?;
        file.place()
    }
}

/// The parts of a file's path if it is to be written, else why not.
fn parts_of<'p>(
    opened: &Opened,
    file: &'p Stored,
    taken: &mut HashSet<Vec<&'p str>>,
) -> Result<Vec<&'p str>, &'static str> {
    let parts = parts(&file.path)?;
    let found = opened.pack.find(&file.path);
    if !found.is_some_and(|data| std::ptr::eq(data, opened.data(file))) {
        return Err("a file before it has a path that matches");
    }
    if !taken.insert(parts.clone()) {
        return Err("a file before it has the same place");
    }
    Ok(parts)
}

/// A file of a pack, as it is reported.
fn name(input: &Input, file: &Stored) -> String {
    format!("{}: {}", input.shown(), shown(&file.path))
}
