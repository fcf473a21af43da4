//! `salvage`: what a damaged marked pack still holds.

use super::{counted, tell_refusal, unread};
use crate::input::{Bytes, Input};
use crate::json::{Converted, Outcome, Refused, Report};
use crate::output::{Force, Form, Output};
use crate::refusal::Told;
use crate::room::Room;
use crate::run::{End, Run, Status};
use serde::Serialize;
use std::io;
use std::path::{Path, PathBuf};
use xnb::pack::{PackError, PackRefused};
use xnb::salvage::{salvage_into, Stretch, MOST_STRETCHES, WORDS_PER_STRETCH};
use xnb::{OutOfMemory, Pack};

/// The bytes of a pack's file count.
const COUNT: usize = 4;
const WITHOUT_MARKS: &str =
    "it is a pack without marks, which are what salvage goes by; nothing is written";
const NOTHING_KEPT: &str =
    "no record is kept, so nothing is written; -f writes a pack without files";

/// Write a marked pack of the records that a damaged one still holds
///
/// Prints how many records and bytes are kept, and the start and the length of
/// each stretch that is skipped: on standard error where the new pack goes to
/// standard output. The status is 0 whatever is skipped, but 1 if no record is
/// kept, and nothing is then written without -f. A pack without marks is reported
/// as one, and nothing is written. A mark inside damaged data may be kept as a record.
/// The output takes its place when it is whole; a file that is there, the input
/// too, is overwritten only with -f.
#[derive(clap::Args)]
#[command(verbatim_doc_comment)]
pub struct Salvage {
    /// A damaged marked pack, or - for standard input
    #[arg(value_name = "IN", value_hint = clap::ValueHint::FilePath)]
    input: PathBuf,

    /// A file, or - for standard output
    #[arg(short, long, value_name = "OUT", required_unless_present = "list",
        value_hint = clap::ValueHint::FilePath)]
    output: Option<PathBuf>,

    #[command(flatten)]
    force: Force,

    /// Print the skipped stretches alone, a line each: start and length; no output is needed
    #[arg(long)]
    list: bool,

    /// Print JSON: an object on a line of its own
    #[arg(long)]
    json: bool,
}

/// A new pack, at the start of its room, and what is not in it.
struct Saved {
    room: Room,
    length: usize,
    skipped: Vec<Skipped>,
}

/// What is reported of a pack.
#[derive(Serialize)]
struct Salvaged {
    /// The length of the damaged pack.
    bytes: usize,
    kept: Kept,
    skipped: Vec<Skipped>,
    /// What came of the output, if one is asked for.
    #[serde(flatten)]
    outcome: Option<Outcome>,
}

#[derive(Serialize)]
struct Kept {
    records: usize,
    /// The length of the kept records, with their marks.
    bytes: usize,
}

#[derive(Serialize)]
struct Skipped {
    start: u64,
    length: u64,
}

impl Salvage {
    pub fn run(&self, run: &mut Run) -> End {
        let input = Input::of(&self.input);
        let output = self.output.as_deref().map(Output::of);
        let existing = self.force.existing();
        if let Some(output) = &output {
            if !output.is_free(run, Form::Raw, existing) {
                return self.unwritten(run, &input, None);
            }
        }
        let pack = match input.read_or_report(run) {
            Ok(pack) => pack,
            Err(why) => return unread(run, &input, &why, self.json),
        };
        let is_without_marks = match is_without_marks(&pack) {
            Ok(is_without_marks) => is_without_marks,
            Err(error) => {
                run.fail(input.shown(), error);
                return self.unwritten(run, &input, Some(pack.len()));
            }
        };
        if is_without_marks {
            run.mark(Status::Refused);
            run.note(&format!("{}: {WITHOUT_MARKS}\n", input.shown()));
            let bytes = Some(pack.len());
            let outcome = Outcome::unwritten(WITHOUT_MARKS);
            return self.print_json(run, &input, Converted { bytes, outcome });
        }
        let salvage = || salvage(&pack, output.as_ref());
        let saved = match run.progress().during("salvaging", salvage) {
            Ok(Ok(saved)) => saved,
            Ok(Err(refused)) => {
                return self.tell_refused(run, &input, Told::of_pack(&pack, refused, true))
            }
            Err(error) => {
                run.fail(input.shown(), error);
                return self.unwritten(run, &input, Some(pack.len()));
            }
        };
        if !input.is_unchanged(run, &pack) {
            return self.unwritten(run, &input, Some(pack.len()));
        }
        let Saved {
            room,
            length,
            skipped,
        } = saved;
        let records = room.first_chunk().map_or(0, |it| u32::from_le_bytes(*it)) as usize;
        let mut salvaged = Salvaged {
            bytes: pack.len(),
            kept: Kept {
                records,
                bytes: length - COUNT,
            },
            skipped,
            outcome: None,
        };
        let is_left = records == 0 && !self.force.is_on();
        if is_left {
            run.mark(Status::Refused);
        }
        match &output {
            Some(_) if is_left => {
                run.note(&format!("{}: {NOTHING_KEPT}\n", input.shown()));
                salvaged.outcome = Some(Outcome::unwritten(NOTHING_KEPT));
            }
            Some(output) => {
                if !output.write_room(run, room, length, existing)? {
                    return self.unwritten(run, &input, Some(pack.len()));
                }
                let path = self.output.as_deref().unwrap_or(Path::new("-"));
                salvaged.outcome = Some(Outcome::written(path, length));
            }
            None => {}
        }
        let report = self.report(&input, salvaged);
        match output {
            _ if run.is_quiet() && !self.list && !self.json => Ok(()),
            Some(Output::Standard) => {
                run.note(&report);
                Ok(())
            }
            _ => run.print(&report),
        }
    }

    fn tell_refused(&self, run: &mut Run, input: &Input, refused: Told) -> End {
        if !self.json {
            tell_refusal(run, input, &refused);
            return Ok(());
        }
        run.mark(Status::Refused);
        run.print(&Report::line(input, Refused { refused }))
    }

    /// Reports to a program that nothing was written; to people it was reported when it was met.
    fn unwritten(&self, run: &mut Run, input: &Input, bytes: Option<usize>) -> End {
        let outcome = Outcome::unwritten(run.failure());
        self.print_json(run, input, Converted { bytes, outcome })
    }

    fn print_json(&self, run: &mut Run, input: &Input, fields: Converted) -> End {
        match self.json {
            true => run.print(&Report::line(input, fields)),
            false => Ok(()),
        }
    }

    /// What was kept and what was skipped, as it is asked for.
    fn report(&self, input: &Input, salvaged: Salvaged) -> String {
        if self.json {
            return Report::line(input, salvaged);
        }
        if self.list {
            let line = |it: &Skipped| format!("{} {}\n", it.start, it.length);
            return salvaged.skipped.iter().map(line).collect();
        }
        lines(input, &salvaged)
    }
}

/// Whether a pack reads as one without marks, and has files.
fn is_without_marks(pack: &[u8]) -> Result<bool, OutOfMemory> {
    match Pack::read(pack) {
        Ok(pack) => Ok(!pack.is_empty()),
        Err(PackError::Refused(_)) => Ok(false),
        Err(PackError::OutOfMemory(error)) => Err(error),
    }
}

/// Salvages a pack to room for an output, or nowhere if there is none, and lists what is skipped.
fn salvage(pack: &Bytes, output: Option<&Output>) -> io::Result<Result<Saved, PackRefused>> {
    // Room for all, also where the pack changes while it is read.
    let mut room = match output {
        Some(output) => Room::new(pack.len(), output.folder().as_deref())?,
        None => Room::nowhere(pack.len())?,
    };
    let mut list = vec![0; WORDS_PER_STRETCH * MOST_STRETCHES];
    let written = match salvage_into(pack, &mut room, &mut list) {
        Ok(written) => written,
        Err(refused) => return Ok(Err(refused)),
    };
    let skipped = |Stretch { start, length }| Skipped { start, length };
    let skipped = written.skipped(&list).map(skipped).collect();
    Ok(Ok(Saved {
        room,
        length: written.length,
        skipped,
    }))
}

/// A line with the sums, and one for each stretch.
fn lines(input: &Input, salvaged: &Salvaged) -> String {
    let skipped_bytes: u64 = salvaged.skipped.iter().map(|it| it.length).sum();
    let records = counted(salvaged.kept.records, "record", "records");
    let kept = counted(salvaged.kept.bytes, "byte", "bytes");
    let stretches = counted(salvaged.skipped.len(), "stretch", "stretches");
    let skipped = counted(skipped_bytes as usize, "byte", "bytes");
    let name = input.shown();
    let mut lines = format!("{name}: kept {records}, {kept}; skipped {stretches}, {skipped}\n");
    for Skipped { start, length } in &salvaged.skipped {
        lines += &format!("  skipped at {start}, length {length}\n");
    }
    lines
}
