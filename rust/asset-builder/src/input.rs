//! The files that a command works on.

use crate::names::shown;
use crate::progress::Progress;
use crate::room::{read_at_most, Room};
use crate::run::Run;
use crate::system;
use memmap2::Mmap;
use std::ffi::OsStr;
use std::fs::{File, Metadata};
use std::io;
use std::ops::Deref;
use std::os::unix::fs::MetadataExt;
use std::path::{Path, PathBuf};
use walkdir::{DirEntry, WalkDir};

/// The longest file that the loader takes.
pub const LONGEST_FILE: u64 = 16_777_216;
const STANDARD_INPUT: &str = "-";
const OF_FILES: &str = "xnb";
const OF_PACKS: &str = "pak";
/// What is reported of a file that changes while it is mapped.
pub const CHANGED: &str = "it was changed while it was read, so nothing is written";
/// What is reported of `-` that is named twice.
pub const ONCE: &str = "standard input is read once only";
const CUT: &str = "it was cut while it was read, so nothing is written";

#[derive(clap::Args)]
pub struct Inputs {
    /// Files, folders (the .xnb files below them), or - for standard input
    #[arg(value_name = "FILE", required = true, value_hint = clap::ValueHint::AnyPath)]
    files: Vec<PathBuf>,
}

#[derive(clap::Args)]
pub struct Packs {
    /// Packs, folders (the .pak files below them), or - for standard input
    #[arg(value_name = "PACK", required = true, value_hint = clap::ValueHint::AnyPath)]
    packs: Vec<PathBuf>,
}

#[derive(clap::Args)]
pub struct FilesAndPacks {
    /// Files, packs, folders (the .xnb and .pak files below them), or - for standard input
    #[arg(value_name = "FILE|FOLDER|PACK", required = true, value_hint = clap::ValueHint::AnyPath)]
    files: Vec<PathBuf>,
}

impl FilesAndPacks {
    /// Whether standard input is among them.
    pub fn have_stdin(&self) -> bool {
        self.files.iter().any(|path| is_stdin(path))
    }

    /// Every file and pack; what cannot be listed is told.
    pub fn list(&self) -> Vec<Input> {
        list(&self.files, &[OF_FILES, OF_PACKS])
    }

    /// What was named.
    pub fn paths(&self) -> &[PathBuf] {
        &self.files
    }
}

/// One file to work on.
#[derive(Clone, Debug)]
pub struct Input {
    path: PathBuf,
    /// The folder that it was found below.
    folder: Option<PathBuf>,
    /// Why it is none, if it could not be listed.
    unlisted: Option<String>,
}

impl Inputs {
    /// Whether one file was named, and not a folder.
    pub fn is_one_file(&self) -> bool {
        is_one_file(&self.files)
    }

    /// Whether standard input is among them.
    pub fn have_stdin(&self) -> bool {
        self.files.iter().any(|path| is_stdin(path))
    }

    /// Every file; what cannot be listed is reported.
    pub fn list(&self) -> Vec<Input> {
        list(&self.files, &[OF_FILES])
    }
}

impl Packs {
    /// Whether one pack was named, and not a folder.
    pub fn is_one_file(&self) -> bool {
        is_one_file(&self.packs)
    }

    /// Whether standard input is among them.
    pub fn have_stdin(&self) -> bool {
        self.packs.iter().any(|path| is_stdin(path))
    }

    /// Every pack; what cannot be listed is reported.
    pub fn list(&self) -> Vec<Input> {
        list(&self.packs, &[OF_PACKS])
    }
}

fn is_one_file(paths: &[PathBuf]) -> bool {
    matches!(paths, [path] if is_stdin(path) || !path.is_dir())
}

/// Every file that is named, and those of a folder in order of their names.
fn list(paths: &[PathBuf], extensions: &[&str]) -> Vec<Input> {
    let mut inputs: Vec<Input> = Vec::new();
    for path in paths {
        if is_stdin(path) && inputs.iter().any(Input::is_stdin) {
            inputs.push(Input::unlisted(path, ONCE));
        } else if !is_stdin(path) && path.is_dir() {
            inputs.extend(below(path, extensions));
        } else {
            inputs.push(Input::of(path));
        }
    }
    inputs
}

/// The files with one of the extensions below a folder, links followed.
fn below(folder: &Path, extensions: &[&str]) -> Vec<Input> {
    let mut found = Vec::new();
    for entry in WalkDir::new(folder).follow_links(true).sort_by_file_name() {
        match entry {
            Ok(entry) if has_extension(&entry, extensions) => found.push(Input {
                path: entry.into_path(),
                folder: Some(folder.to_path_buf()),
                unlisted: None,
            }),
            Ok(_) => {}
            Err(error) => {
                let path = error.path().unwrap_or(folder);
                let why = match error.io_error() {
                    Some(error) => error.to_string(),
                    None => "a link that leads back to a folder above it".to_string(),
                };
                found.push(Input::unlisted(path, &why));
            }
        }
    }
    if found.is_empty() {
        let why = format!("no .{} file is in it", extensions.join(" or ."));
        found.push(Input::unlisted(folder, &why));
    }
    found
}

fn has_extension(entry: &DirEntry, extensions: &[&str]) -> bool {
    let found = entry.path().extension();
    let is_one = |found: &OsStr| extensions.iter().any(|it| found.eq_ignore_ascii_case(it));
    entry.file_type().is_file() && found.is_some_and(is_one)
}

fn is_stdin(path: &Path) -> bool {
    path.as_os_str() == STANDARD_INPUT
}

impl Input {
    /// The file of this path, or standard input for `-`.
    pub fn of(path: &Path) -> Input {
        Input {
            path: path.to_path_buf(),
            folder: None,
            unlisted: None,
        }
    }

    /// What was named, or found below a folder, and is no file that can be read.
    fn unlisted(path: &Path, why: &str) -> Input {
        Input {
            unlisted: Some(why.to_string()),
            ..Input::of(path)
        }
    }

    /// Its name, to be printed.
    pub fn shown(&self) -> String {
        shown(&self.path)
    }

    pub fn is_stdin(&self) -> bool {
        is_stdin(&self.path)
    }

    pub fn path(&self) -> &Path {
        &self.path
    }

    /// The folder that was named and that it was found below.
    pub fn folder(&self) -> Option<&Path> {
        self.folder.as_deref()
    }

    /// Its path below the folder that it was found in, or its last part.
    pub fn relative(&self) -> Option<&Path> {
        match &self.folder {
            Some(folder) => self.path.strip_prefix(folder).ok(),
            None if self.is_stdin() => None,
            None => self.path.file_name().map(OsStr::as_ref),
        }
    }

    /// Its bytes, up to so many.
    pub fn read_at_most(&self, most: u64) -> io::Result<Vec<u8>> {
        self.check_listed()?;
        if self.is_stdin() {
            return read_at_most(io::stdin(), most, 0);
        }
        let file = File::open(&self.path)?;
        let length = file.metadata()?.len();
        read_at_most(file, most, length)
    }

    /// The bytes of an XNB file, up to one more than the loader takes; what cannot be read is reported.
    pub fn read_file_or_report(&self, run: &mut Run) -> Result<Vec<u8>, String> {
        // The loader refuses a longer file whatever follows.
        let read = self.read_at_most(LONGEST_FILE + 1);
        self.report(run, read)
    }

    /// All its bytes; what cannot be read is reported.
    pub fn read_or_report(&self, run: &mut Run) -> Result<Bytes, String> {
        let read = self.bytes(run.progress());
        run.progress().clear();
        self.report(run, read)
    }

    /// The same as a part of work whose progress is shown.
    pub fn read_as_part(&self, run: &mut Run) -> Result<Bytes, String> {
        let read = self.bytes(&mut Progress::new(false));
        self.report(run, read)
    }

    /// All its bytes, without a report.
    pub fn mapped(&self) -> io::Result<Bytes> {
        self.bytes(&mut Progress::new(false))
    }

    /// All its bytes as they are now, copied: no change of the file reaches them.
    pub fn copied(&self) -> io::Result<Bytes> {
        self.check_listed()?;
        Room::read(File::open(&self.path)?, |_| {}).map(Bytes::Read)
    }

    /// Reports what came of reading it: the length if that is wanted, and a failure.
    fn report<B: Deref<Target = [u8]>>(
        &self,
        run: &mut Run,
        read: io::Result<B>,
    ) -> Result<B, String> {
        match read {
            Ok(bytes) => {
                let (name, length) = (self.shown(), bytes.len());
                run.say(&format!("{name}: {length} bytes read\n"));
                Ok(bytes)
            }
            Err(error) => {
                run.fail(self.shown(), &error);
                Err(error.to_string())
            }
        }
    }

    /// Whether its bytes are still those of the file; a change is reported.
    pub fn is_unchanged(&self, run: &mut Run, bytes: &Bytes) -> bool {
        let unchanged = bytes.are_unchanged();
        if !unchanged {
            run.fail(self.shown(), CHANGED);
        }
        unchanged
    }

    fn check_listed(&self) -> io::Result<()> {
        match &self.unlisted {
            Some(why) => Err(io::Error::other(why.clone())),
            None => Ok(()),
        }
    }

    /// All its bytes: those of a named file are mapped, others are read.
    fn bytes(&self, progress: &mut Progress) -> io::Result<Bytes> {
        self.check_listed()?;
        progress.expect_bytes(0);
        let advance = |bytes| progress.advance(bytes);
        if self.is_stdin() {
            return Room::read(io::stdin().lock(), advance).map(Bytes::Read);
        }
        let file = File::open(&self.path)?;
        let found = file.metadata()?;
        // A pipe, or a file of the system's, has no length to map.
        if !found.is_file() || found.len() == 0 {
            return Room::read(file, advance).map(Bytes::Read);
        }
        let bytes = system::map(&file, format!("{}: {CUT}", self.shown()))?;
        let found = stamp(&found);
        Ok(Bytes::Mapped { bytes, file, found })
    }
}

/// The bytes of an input.
pub enum Bytes {
    Read(Room),
    Mapped {
        bytes: Mmap,
        file: File,
        /// What shows whether the file has changed.
        found: (u64, i64, i64),
    },
}

impl Bytes {
    /// An error if another program has changed the file.
    pub fn check_unchanged(&self) -> io::Result<()> {
        match self.are_unchanged() {
            true => Ok(()),
            false => Err(io::Error::other(
                "what is written was changed while it was read",
            )),
        }
    }

    fn are_unchanged(&self) -> bool {
        match self {
            Bytes::Read(_) => true,
            Bytes::Mapped { file, found, .. } => {
                file.metadata().is_ok_and(|now| stamp(&now) == *found)
            }
        }
    }
}

impl Deref for Bytes {
    type Target = [u8];

    fn deref(&self) -> &[u8] {
        match self {
            Bytes::Read(bytes) => bytes,
            Bytes::Mapped { bytes, .. } => bytes,
        }
    }
}

/// A file's length and the time of its last change.
fn stamp(file: &Metadata) -> (u64, i64, i64) {
    (file.len(), file.mtime(), file.mtime_nsec())
}
