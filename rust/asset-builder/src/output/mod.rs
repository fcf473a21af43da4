//! Files that a command writes: each whole, or not at all, and none over a file that is there unless that is asked for.
//!
//! Every command writes through this module. A new one takes the flag `-f` and names its output:
//!
//! ```ignore
//! #[derive(clap::Args)]
//! pub struct Export {
//!     /// A file, or - for standard output
//!     #[arg(short, long, value_name = "OUT")]
//!     output: PathBuf,
//!
//!     #[command(flatten)]
//!     force: Force,
//! }
//!
//! impl Export {
//!     pub fn run(&self, run: &mut Run) -> End {
//!         let output = Output::of(&self.output);
//!         // Before long work: whether the output may be written. What is wrong is reported.
//!         if !output.is_free(run, Form::Text, self.force.existing()) {
//!             return Ok(());
//!         }
//!         let text = exported();
//!         // The file takes its place when it is whole. A failure is reported, and the status is then 2.
//!         if !output.write(run, text.as_bytes(), Form::Text, self.force.existing())? {
//!             return Ok(());
//!         }
//!         run.print("written\n")
//!     }
//! }
//! ```
//!
//! A command that writes each file in its own place takes `Existing::Replace`. `Part` is for a command that places files
//! itself, as `pack extract` does; `place_synced` or `place`, and one `sync` of the folder at the end.

mod part;
mod signals;

pub use part::{unnamed_file, Part};
pub use signals::{end_by, watch};

use crate::names::shown;
use crate::progress::Progress;
use crate::room::Room;
use crate::run::{Run, Stop};
use std::fs::{self, File, OpenOptions};
use std::io::{self, IsTerminal, Write};
use std::path::{Path, PathBuf};

/// The bytes that are written between two steps of the progress.
const PIECE: usize = 1 << 22;

/// The flag of a command that writes.
#[derive(clap::Args, Clone, Copy)]
pub struct Force {
    /// Overwrite a file that is there, and write raw bytes to a terminal
    #[arg(short, long)]
    force: bool,
}

impl Force {
    pub fn is_on(self) -> bool {
        self.force
    }

    /// What becomes of a file that is at the output's place.
    pub fn existing(self) -> Existing {
        match self.force {
            true => Existing::Force,
            false => Existing::Keep,
        }
    }
}

/// What becomes of a file that is at an output's place.
#[derive(Clone, Copy, Debug, PartialEq, Eq)]
pub enum Existing {
    /// It stays, and the output is refused.
    Keep,
    /// It is replaced unless it is read-only, as in a command whose point that is.
    Replace,
    /// It is replaced, and a terminal gets raw bytes.
    Force,
}

/// What an output holds.
#[derive(Clone, Copy, Debug, PartialEq, Eq)]
pub enum Form {
    /// Text of ours, which a terminal may show.
    #[allow(dead_code)]
    Text,
    /// Bytes of any kind, which a terminal might take for commands.
    Raw,
}

/// Where an output goes.
#[derive(Clone, Debug, PartialEq, Eq)]
pub enum Output {
    Standard,
    File(PathBuf),
}

impl Output {
    /// The file of this path, or standard output for `-`.
    pub fn of(path: &Path) -> Output {
        match path.as_os_str() == "-" {
            true => Output::Standard,
            false => Output::File(path.to_path_buf()),
        }
    }

    /// Whether it may be written; what is in its way is reported.
    pub fn is_free(&self, run: &mut Run, form: Form, existing: Existing) -> bool {
        let free = match self {
            Output::Standard => free_terminal(form, existing, run.prints_to_terminal()),
            Output::File(path) => free_place(path, existing),
        };
        free.map_err(|error| run.fail(self.shown(), error)).is_ok()
    }

    /// Writes the bytes and answers whether they are written; a failure of a file is reported.
    pub fn write(
        &self,
        run: &mut Run,
        bytes: &[u8],
        form: Form,
        existing: Existing,
    ) -> Result<bool, Stop> {
        self.write_checked(run, bytes, form, existing, || Ok(()))
    }

    /// As `write`, where the file takes its place only if the check finds nothing wrong at the end.
    pub fn write_checked(
        &self,
        run: &mut Run,
        bytes: &[u8],
        form: Form,
        existing: Existing,
        check: impl FnOnce() -> io::Result<()>,
    ) -> Result<bool, Stop> {
        if bytes.len() <= PIECE || *self == Output::Standard {
            return self.write_by(run, form, existing, |out| {
                out.write_all(bytes)?;
                check()
            });
        }
        if !self.is_free(run, form, existing) {
            return Ok(false);
        }
        let Output::File(path) = self else {
            return Ok(false);
        };
        let progress = run.progress();
        progress.expect_bytes(bytes.len() as u64);
        let written = write_whole(path, form, existing, |out| {
            write_pieces(out, bytes, progress)?;
            check()
        });
        run.progress().clear();
        Ok(self.report(run, written))
    }

    /// As `write`, by an action that writes the bytes in pieces.
    pub fn write_by(
        &self,
        run: &mut Run,
        form: Form,
        existing: Existing,
        action: impl FnOnce(&mut dyn Write) -> io::Result<()>,
    ) -> Result<bool, Stop> {
        if !self.is_free(run, form, existing) {
            return Ok(false);
        }
        match self {
            Output::Standard => run.print_by(action).map(|()| true),
            Output::File(path) => {
                let write = || write_whole(path, form, existing, action);
                let written = run.progress().during("writing", write);
                Ok(self.report(run, written))
            }
        }
    }

    /// As `write`, of the first bytes of a room, which is given its name if it can be.
    pub fn write_room(
        &self,
        run: &mut Run,
        room: Room,
        length: usize,
        existing: Existing,
    ) -> Result<bool, Stop> {
        if let (
            Output::File(path),
            Room::File {
                file,
                can_be_named: true,
                ..
            },
        ) = (self, &room)
        {
            if is_plain_or_new(path) {
                let place = || place_room(file, length, path, existing);
                let written = run.progress().during("writing", place);
                return Ok(self.report(run, written));
            }
        }
        self.write(run, &room[..length], Form::Raw, existing)
    }

    /// The folder of the file that it is.
    pub fn folder(&self) -> Option<PathBuf> {
        match self {
            Output::Standard => None,
            Output::File(path) => {
                let place = part::place_of(path).ok()?;
                Some(part::folder_of(&place).to_path_buf())
            }
        }
    }

    /// Reports what came of writing a file, and whether it is written.
    fn report(&self, run: &mut Run, written: io::Result<Option<String>>) -> bool {
        match written {
            Ok(remark) => {
                if let Some(remark) = remark {
                    run.remark(&format!("{}: {remark}\n", self.shown()));
                }
                run.say(&format!("{}: written\n", self.shown()));
                true
            }
            Err(error) => {
                run.fail(self.shown(), error);
                false
            }
        }
    }

    fn shown(&self) -> String {
        match self {
            Output::Standard => "standard output".to_string(),
            Output::File(path) => shown(path),
        }
    }
}

/// Writes bytes in pieces, with progress.
pub fn write_pieces(
    out: &mut (impl Write + ?Sized),
    bytes: &[u8],
    progress: &mut Progress,
) -> io::Result<()> {
    for piece in bytes.chunks(PIECE) {
        out.write_all(piece).map_err(cut)?;
        progress.advance(piece.len() as u64);
    }
    Ok(())
}

/// The system cannot read what is to be written: the mapped file that holds it was cut.
pub fn cut(error: io::Error) -> io::Error {
    match error.raw_os_error() {
        Some(libc::EFAULT) => io::Error::other("what is written was cut while it was read"),
        _ => error,
    }
}

/// Whether two paths name one place, a link being followed.
pub fn is_same_place(one: &Path, other: &Path) -> bool {
    match (fs::canonicalize(one), fs::canonicalize(other)) {
        (Ok(one), Ok(other)) => one == other,
        _ => false,
    }
}

fn free_terminal(form: Form, existing: Existing, is_terminal: bool) -> io::Result<()> {
    if is_terminal && form == Form::Raw && existing != Existing::Force {
        let why = "raw bytes are not written to a terminal; -o FILE writes a file, -f writes them all the same";
        return Err(io::Error::other(why));
    }
    Ok(())
}

/// Whether a place is free, or what is there may be replaced.
fn free_place(path: &Path, existing: Existing) -> io::Result<()> {
    match fs::metadata(path) {
        Ok(there) if there.is_file() => part::may_replace(path, &there, existing),
        // What is no plain file is written as it is.
        Ok(_) => Ok(()),
        Err(_) if path.is_symlink() => {
            Err(io::Error::other("it is a link to a file that is not there"))
        }
        Err(_) => Ok(()),
    }
}

/// Writes a file whole, and answers what there is to remark. What is no plain file, as a device, is written as it is.
fn write_whole(
    path: &Path,
    form: Form,
    existing: Existing,
    action: impl FnOnce(&mut dyn Write) -> io::Result<()>,
) -> io::Result<Option<String>> {
    if let Some(mut device) = open_device(path)? {
        free_terminal(form, existing, device.is_terminal())?;
        action(&mut device)?;
        return Ok(None);
    }
    let mut part = Part::create(path, existing)?;
    action(&mut part).map_err(cut)?;
    part.place_synced()
}

/// Cuts a file without a name to its length and puts it in its place.
fn place_room(
    file: &File,
    length: usize,
    path: &Path,
    existing: Existing,
) -> io::Result<Option<String>> {
    let file = file.try_clone()?;
    file.set_len(length as u64)?;
    Part::of_unnamed(file, path, existing)?.place_synced()
}

fn is_plain_or_new(path: &Path) -> bool {
    fs::metadata(path).map_or(true, |there| there.is_file())
}

/// What is at the path if it is no plain file, as a device or a pipe.
fn open_device(path: &Path) -> io::Result<Option<File>> {
    match fs::metadata(path) {
        Ok(there) if !there.is_file() => OpenOptions::new().write(true).open(path).map(Some),
        _ => Ok(None),
    }
}
