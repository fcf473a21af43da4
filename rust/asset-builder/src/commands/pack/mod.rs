//! `pack`: the commands over packs of files.

mod extract;
mod find;
mod list;
mod near;
mod place;

use super::tell_refusal;
use crate::input::{Bytes, Input, CHANGED};
use crate::json::{Refused, Report};
use crate::refusal::Told;
use crate::run::{End, Run, Status};
use serde::Serialize;
use xnb::marks::MARK;
use xnb::pack::{PackError, WORDS_PER_FILE};

/// List the files of packs, find one, or write all
#[derive(clap::Args)]
pub struct Pack {
    #[command(subcommand)]
    command: Command,
}

#[derive(clap::Subcommand)]
enum Command {
    List(list::List),
    Find(find::Find),
    Extract(extract::Extract),
}

impl Pack {
    pub fn run(&self, run: &mut Run) -> End {
        match &self.command {
            Command::List(command) => command.run(run),
            Command::Find(command) => command.run(run),
            Command::Extract(command) => command.run(run),
        }
    }
}

/// The form of the packs that are read.
#[derive(clap::Args)]
struct PackForm {
    /// Read marked packs only; else each form is tried, and a marked pack is reported as one
    #[arg(long)]
    marked: bool,
}

/// A pack that was read.
pub struct Opened<'p> {
    pack: xnb::Pack<'p>,
    pub marked: bool,
    pub files: Vec<Stored>,
}

/// A file of a pack: its path, which is a copy since the pack may change, and where its data begins.
#[derive(Serialize)]
pub struct Stored {
    pub path: String,
    first: u64,
    length: u64,
}

/// Why there is no pack.
pub enum Unopened<'p> {
    Refused(Box<Told<'p>>),
    /// What went wrong: another program has changed it, or there is no memory.
    Failed(String),
}

impl PackForm {
    /// Reads a pack of either form, or of the one that is asked for.
    fn open<'p>(&self, bytes: &'p Bytes) -> Result<Opened<'p>, Unopened<'p>> {
        open(bytes, self.marked)
    }
}

/// Reads a pack of either form, or of the marked one only.
pub fn open(bytes: &[u8], marked_only: bool) -> Result<Opened<'_>, Unopened<'_>> {
    let refused = |refused, marked| {
        let told = Told::of_pack(bytes, refused, marked);
        Unopened::Refused(Box::new(told))
    };
    let plain = match marked_only {
        true => None,
        false => Some(xnb::Pack::read(bytes)),
    };
    let (pack, marked) = match (plain, xnb::Pack::read_marked(bytes)) {
        (Some(Ok(pack)), _) => (pack, false),
        (_, Ok(pack)) => (pack, true),
        (Some(Err(PackError::OutOfMemory(error))), _) | (_, Err(PackError::OutOfMemory(error))) => {
            return Err(Unopened::Failed(error.to_string()));
        }
        // The refusal of the form that the first record has.
        (Some(Err(PackError::Refused(plain))), Err(_)) if bytes.get(4..6) != Some(&MARK) => {
            return Err(refused(plain, false));
        }
        (_, Err(PackError::Refused(marked))) => return Err(refused(marked, true)),
    };
    let files = stored(&pack).ok_or_else(|| Unopened::Failed(CHANGED.to_string()))?;
    Ok(Opened {
        pack,
        marked,
        files,
    })
}

impl<'p> Opened<'p> {
    /// The data of a file.
    pub fn data(&self, file: &Stored) -> &'p [u8] {
        &self.pack.bytes()[file.first as usize..][..file.length as usize]
    }
}

/// The files of a pack.
fn stored(pack: &xnb::Pack) -> Option<Vec<Stored>> {
    let entries = pack.words().chunks_exact(WORDS_PER_FILE);
    let stored = |entry: &[u64]| {
        let path = &pack.bytes()[entry[0] as usize..][..entry[1] as usize];
        Some(Stored {
            path: String::from_utf8(path.to_vec()).ok()?,
            first: entry[2],
            length: entry[3],
        })
    };
    entries.map(stored).collect()
}

/// Reports why a pack was not read.
fn tell_unopened(run: &mut Run, input: &Input, why: Unopened, json: bool) -> End {
    match why {
        Unopened::Failed(why) => run.fail(input.shown(), why),
        Unopened::Refused(refused) if json => {
            run.mark(Status::Refused);
            let refused = *refused;
            return run.print(&Report::line(input, Refused { refused }));
        }
        Unopened::Refused(refused) => tell_refusal(run, input, &refused),
    }
    Ok(())
}

/// Says on standard error that a pack is a marked one, where its data or nothing goes to standard output.
fn note_marked(run: &mut Run, input: &Input, opened: &Opened) {
    if opened.marked {
        run.remark(&format!("{}: a marked pack\n", input.shown()));
    }
}
