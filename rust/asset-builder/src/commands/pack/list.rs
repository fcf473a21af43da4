//! `pack list`: the files of packs.

use super::{tell_unopened, PackForm, Stored};
use crate::commands::unread;
use crate::input::Packs;
use crate::json::Report;
use crate::names::shown;
use crate::run::{End, Run};
use serde::Serialize;

/// List the files of each pack
///
/// A line a file, in the order of the pack: the number of bytes of its data,
/// and its path. A refusal goes to standard error. Of several packs, each
/// begins with `==> NAME <==`; a marked pack begins with the line `marked pack`.
#[derive(clap::Args)]
#[command(verbatim_doc_comment)]
pub struct List {
    #[command(flatten)]
    packs: Packs,

    #[command(flatten)]
    form: PackForm,

    /// Print JSON: an object a pack on a line of its own
    #[arg(long)]
    json: bool,
}

/// What is reported of a pack.
#[derive(Serialize)]
struct Listed {
    /// The pack's length.
    bytes: usize,
    marked: bool,
    files: Vec<Stored>,
}

impl List {
    pub fn run(&self, run: &mut Run) -> End {
        let one = self.packs.is_one_file();
        for input in self.packs.list() {
            let bytes = match input.read_or_report(run) {
                Ok(bytes) => bytes,
                Err(why) => {
                    unread(run, &input, &why, self.json)?;
                    continue;
                }
            };
            let opened = match self.form.open(&bytes) {
                Ok(opened) => opened,
                Err(why) => {
                    tell_unopened(run, &input, why, self.json)?;
                    continue;
                }
            };
            if !input.is_unchanged(run, &bytes) {
                continue;
            }
            let (marked, files) = (opened.marked, opened.files);
            if self.json {
                let bytes = bytes.len();
                let listed = Listed {
                    bytes,
                    marked,
                    files,
                };
                run.print(&Report::line(&input, listed))?;
                continue;
            }
            if !one {
                run.print(&format!("==> {} <==\n", input.shown()))?;
            }
            if marked {
                run.print("marked pack\n")?;
            }
            for file in files {
                run.print(&format!("{:>10} {}\n", file.length, shown(file.path)))?;
            }
        }
        Ok(())
    }
}
