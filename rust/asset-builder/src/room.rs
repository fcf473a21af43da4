//! Room for bytes that may be more than the memory has: in memory where they are few, else in a file without a name.

use crate::output::unnamed_file;
use crate::system::{map_mut, Sink};
use memmap2::MmapMut;
use rustix::fs::FallocateFlags;
use std::fs::File;
use std::io::{self, Read, Write};
use std::ops::{Deref, DerefMut};
use std::path::{Path, PathBuf};

/// So many bytes are held in memory.
const FEW: usize = 1 << 24;
/// The bytes that are written at once.
const PIECE: usize = 1 << 22;
/// The bytes that are asked for at least where more are read than were expected.
const LEAST: usize = 1 << 16;

/// Bytes of this run alone.
pub enum Room {
    Memory(Vec<u8>),
    File {
        file: File,
        bytes: MmapMut,
        /// Whether the file can get a name in the folder that it was asked for.
        can_be_named: bool,
    },
    /// Bytes of which only the first are read.
    Nowhere(Sink),
}

impl Room {
    /// Room for so many bytes, in the folder if they are many.
    pub fn new(length: usize, folder: Option<&Path>) -> io::Result<Room> {
        if length <= FEW {
            return zeros(length).map(Room::Memory);
        }
        let (file, can_be_named) = open(folder)?;
        grow(&file, length)?;
        Room::of_file(file, can_be_named)
    }

    /// Room for so many bytes of which only the first are read, at no cost of memory or disk.
    pub fn nowhere(length: usize) -> io::Result<Room> {
        if length <= FEW {
            return zeros(length).map(Room::Memory);
        }
        let (file, _) = open(None)?;
        Sink::new(&file, length).map(Room::Nowhere)
    }

    /// All that can be read, with progress over it.
    pub fn read(mut input: impl Read, mut advance: impl FnMut(u64)) -> io::Result<Room> {
        let mut bytes = Vec::new();
        while bytes.len() <= FEW {
            reserve(&mut bytes, PIECE)?;
            let read = input.by_ref().take(PIECE as u64).read_to_end(&mut bytes)?;
            advance(read as u64);
            if read == 0 {
                return Ok(Room::Memory(bytes));
            }
        }
        let (mut file, _) = open(None)?;
        while !bytes.is_empty() {
            file.write_all(&bytes)?;
            bytes.clear();
            let read = input.by_ref().take(PIECE as u64).read_to_end(&mut bytes)?;
            advance(read as u64);
        }
        Room::of_file(file, false)
    }

    fn of_file(file: File, can_be_named: bool) -> io::Result<Room> {
        let bytes = map_mut(&file)?;
        Ok(Room::File {
            file,
            bytes,
            can_be_named,
        })
    }
}

impl Deref for Room {
    type Target = [u8];

    fn deref(&self) -> &[u8] {
        match self {
            Room::Memory(bytes) => bytes,
            Room::File { bytes, .. } => bytes,
            Room::Nowhere(sink) => sink,
        }
    }
}

impl DerefMut for Room {
    fn deref_mut(&mut self) -> &mut [u8] {
        match self {
            Room::Memory(bytes) => bytes,
            Room::File { bytes, .. } => bytes,
            Room::Nowhere(sink) => sink,
        }
    }
}

/// A new file without a name, and whether it can get one in the folder.
fn open(folder: Option<&Path>) -> io::Result<(File, bool)> {
    if let Some(file) = folder.and_then(|folder| unnamed_file(folder).ok()) {
        return Ok(file);
    }
    let folder =
        std::env::var_os("TMPDIR").map_or_else(|| PathBuf::from("/var/tmp"), PathBuf::from);
    unnamed_file(&folder).map(|(file, _)| (file, false))
}

/// Gives a file so many bytes, all of them on the disk: a hole that finds no room later could only end the run.
fn grow(file: &File, length: usize) -> io::Result<()> {
    match rustix::fs::fallocate(file, FallocateFlags::empty(), 0, length as u64) {
        Err(rustix::io::Errno::OPNOTSUPP | rustix::io::Errno::NOSYS) => {
            let zeros = zeros(PIECE)?;
            let mut file = file;
            for at in (0..length).step_by(PIECE) {
                file.write_all(&zeros[..PIECE.min(length - at)])?;
            }
            Ok(())
        }
        grown => Ok(grown?),
    }
}

/// All that can be read, up to so many bytes; as many as are expected take no more memory than that.
pub fn read_at_most(input: impl Read, most: u64, expected: u64) -> io::Result<Vec<u8>> {
    let mut input = input.take(most);
    let mut bytes = Vec::new();
    // One more, in which the end is found.
    reserve(&mut bytes, expected.min(most) as usize + 1)?;
    loop {
        let room = bytes.capacity() - bytes.len();
        let read = input.by_ref().take(room as u64).read_to_end(&mut bytes)?;
        if read == 0 {
            return Ok(bytes);
        }
        if bytes.len() == bytes.capacity() {
            let more = bytes.len().max(LEAST);
            reserve(&mut bytes, more)?;
        }
    }
}

/// So many zeros, or an error that says how many they were.
pub fn zeros(length: usize) -> io::Result<Vec<u8>> {
    let mut bytes = Vec::new();
    reserve(&mut bytes, length)?;
    bytes.resize(length, 0);
    Ok(bytes)
}

/// Makes room for so many bytes more.
fn reserve(bytes: &mut Vec<u8>, more: usize) -> io::Result<()> {
    let asked = bytes.len() + more;
    let refused = |_| io::Error::other(format!("no memory for {asked} bytes"));
    bytes.try_reserve(more).map_err(refused)
}
