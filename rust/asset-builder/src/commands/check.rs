//! `check`: whether the asset builder takes each file.

use super::ranking::{Padding, Ranking};
use super::{at_most_all_rows, counted, for_each, load, words_for, BUILDER_ROWS};
use crate::enums::Enums;
use crate::input::{Input, Inputs};
use crate::json::{Line, Report, Why};
use crate::refusal::Told;
use crate::run::{End, Run, Status};
use serde::Serialize;
use std::fmt::{self, Display, Formatter};
use xnb::{Loaded, Loader, Refused, Table};

/// Say whether the asset builder takes each file, and why not
///
/// The answer is that of the C entry xnb_load: there is room for 1024 rows unless
/// --rows gives more, and there are no enum types unless --enums gives them.
/// A file that is taken has one line, with its padding: how many bytes its seven-bit
/// numbers have more than their shortest forms, which `shorten` leaves out. A refusal
/// names the rule, what was found, and the bytes around the place. The last line sums
/// up, with the padding of all files and how many of them pad.
/// With --driver, a file must keep the rules of the driver's own screen besides:
/// platform w, each seven-bit number in its shortest form, each reader used and none
/// of an earlier one's type, no String key twice in a dictionary, a Page as the first
/// object, and a next page to each page.
#[derive(clap::Args)]
#[command(verbatim_doc_comment)]
pub struct Check {
    #[command(flatten)]
    inputs: Inputs,

    /// Give room for N rows instead
    #[arg(long, value_name = "N", default_value_t = BUILDER_ROWS,
        value_parser = at_most_all_rows())]
    rows: u32,

    #[command(flatten)]
    enums: Enums,

    /// Ask whether the driver's own screen takes each file (refusals 41 to 47)
    #[arg(long)]
    driver: bool,

    /// List the files that pad instead of all that are taken, most padding first, then each folder named with its sum
    #[arg(long)]
    by_padding: bool,

    /// Print JSON: an object a file on a line of its own, and the summary on the last
    #[arg(long)]
    json: bool,
}

/// What is reported of a file.
#[derive(Serialize)]
pub struct Checked<'f> {
    /// The number that the asset builder gets.
    #[serde(skip_serializing_if = "Option::is_none")]
    answer: Option<u64>,
    #[serde(flatten)]
    outcome: Outcome<'f>,
}

#[derive(Serialize)]
#[serde(rename_all = "lowercase")]
enum Outcome<'f> {
    Accepted(Accepted),
    Refused(Told<'f>),
    Unread(Why),
}

/// What an accepted file holds.
#[derive(Clone, Copy, Serialize)]
pub struct Accepted {
    rows: usize,
    readers: usize,
    shared: usize,
    pub padding: usize,
    /// The file's length.
    pub bytes: usize,
}

#[derive(Default, Serialize)]
struct Summary {
    files: usize,
    accepted: usize,
    refused: usize,
    unread: usize,
    #[serde(flatten)]
    padding: Padding,
}

/// The last line.
#[derive(Serialize)]
struct Summed {
    summary: Summary,
}

impl Check {
    pub fn run(&self, run: &mut Run) -> End {
        let Some(enums) = self.enums.read(&self.inputs, run) else {
            return Ok(());
        };
        let loader = Loader::new().with_enums(&enums);
        let mut summary = Summary::default();
        let mut ranking = Ranking::default();
        for_each(&self.inputs, run, |run, input, file| {
            let checked = self.checked(loader, file);
            summary.count(&checked.outcome);
            match &checked.outcome {
                Outcome::Accepted(accepted) if self.by_padding => {
                    ranking.add(input, *accepted);
                    return Ok(());
                }
                Outcome::Refused(_) => run.mark(Status::Refused),
                _ => {}
            }
            match self.json {
                true => run.print(&Report::line(input, checked)),
                false => print(run, input, &checked.outcome),
            }
        })?;
        ranking.print(run, self.json)?;
        match self.json {
            true => run.print(&Line::of(Summed { summary })),
            false => run.print_done(&format!("{summary}\n")),
        }
    }

    fn checked<'f>(&self, loader: Loader, file: Result<&'f [u8], String>) -> Checked<'f> {
        let file = match file {
            Ok(file) => file,
            Err(why) => {
                return Checked {
                    answer: None,
                    outcome: Outcome::Unread(Why { why }),
                }
            }
        };
        match self.load(loader, file) {
            Ok(table) => Checked::accepted(Accepted::of(file, table.loaded())),
            Err(refused) => Checked {
                answer: Some(packed(refused)),
                outcome: Outcome::Refused(Told::of_file(loader, file, refused, self.rows as usize)),
            },
        }
    }

    /// Loads a file with the rules that are asked for.
    fn load<'f>(&self, loader: Loader, file: &'f [u8]) -> Result<Table<'f>, Refused> {
        match self.driver {
            true => loader.load_driver_into(file, words_for(file, self.rows)),
            false => load(loader, file, self.rows),
        }
    }
}

/// A refusal as the asset builder gets it.
fn packed(refused: Refused) -> u64 {
    (u64::from(refused.refusal.number()) << 32) + u64::from(refused.place)
}

/// Prints the lines of a file; why one is unread was reported when it was met.
fn print(run: &mut Run, input: &Input, outcome: &Outcome) -> End {
    let paint = run.paint();
    let name = paint.name(&input.shown());
    match outcome {
        Outcome::Accepted(accepted) => run.print_done(&format!("{name}: {accepted}\n")),
        Outcome::Refused(told) => run.print(&format!("{name}: {}", told.lines(paint))),
        Outcome::Unread(_) => Ok(()),
    }
}

impl Checked<'_> {
    pub fn accepted(accepted: Accepted) -> Self {
        Checked {
            answer: Some(accepted.rows as u64),
            outcome: Outcome::Accepted(accepted),
        }
    }
}

impl Accepted {
    fn of(file: &[u8], loaded: Loaded) -> Accepted {
        Accepted {
            rows: loaded.rows,
            readers: loaded.readers,
            shared: loaded.shared,
            padding: loaded.padding,
            bytes: file.len(),
        }
    }
}

impl Display for Accepted {
    fn fmt(&self, out: &mut Formatter) -> fmt::Result {
        let Accepted {
            rows,
            readers,
            shared,
            padding,
            ..
        } = self;
        write!(
            out,
            "rows {rows} readers {readers} shared {shared} padding {padding}"
        )
    }
}

impl Summary {
    fn count(&mut self, outcome: &Outcome) {
        self.files += 1;
        match outcome {
            Outcome::Accepted(accepted) => {
                self.accepted += 1;
                self.padding.add(accepted);
            }
            Outcome::Refused(_) => self.refused += 1,
            Outcome::Unread(_) => self.unread += 1,
        }
    }
}

impl Display for Summary {
    fn fmt(&self, out: &mut Formatter) -> fmt::Result {
        let Summary {
            files,
            accepted,
            refused,
            unread,
            padding,
        } = self;
        let files = counted(*files, "file", "files");
        let padded = counted(padding.padded, "file", "files");
        write!(
            out,
            "{files}: {accepted} accepted, {refused} refused, {unread} unread; "
        )?;
        write!(out, "padding {} in {padded}", padding.padding)
    }
}
