//! Packs of files, written from descriptions in code, with the table that a reader must give.

pub mod folder;
pub mod lookups;
pub mod marked;
pub mod salvage;
pub mod sample;
mod samples;

pub use sample::PackSample;
pub use samples::samples;

use crate::writer::{seven_bytes, Seven};

/// The mark of a pack without marks.
pub const NO_MARK: &[u8] = &[];

/// A form of packs: what stands before each record, and how samples of it are named.
#[derive(Clone, Copy, Debug)]
pub struct Form {
    pub mark: &'static [u8],
    pub name: &'static str,
    /// The folder that keeps them.
    pub topic: &'static str,
    /// What the names of its files end in.
    pub extension: &'static str,
}

/// The form of Req 01.
pub const PLAIN: Form = Form {
    mark: NO_MARK,
    name: "pack",
    topic: "packs",
    extension: "pak",
};

/// A file to be stored in a pack.
#[derive(Clone, Debug, PartialEq, Eq)]
pub struct Stored {
    pub path: Vec<u8>,
    /// The number of bytes that the path's length is written in, 0 for the shortest form.
    pub width: usize,
    pub data: Vec<u8>,
}

pub fn stored(path: impl Into<Vec<u8>>, data: impl Into<Vec<u8>>) -> Stored {
    Stored {
        path: path.into(),
        width: 0,
        data: data.into(),
    }
}

/// Where the fields of a file's record start, and where it ends.
#[derive(Clone, Copy, Debug, PartialEq, Eq)]
pub struct Places {
    pub start: usize,
    /// The path's length.
    pub count: usize,
    pub path: usize,
    pub size: usize,
    pub data: usize,
    pub end: usize,
}

impl Places {
    /// Path start, path length, data start, data length.
    pub fn entry(&self) -> [u64; 4] {
        let path_length = self.size - self.path;
        let data_length = self.end - self.data;
        [self.path, path_length, self.data, data_length].map(|word| word as u64)
    }
}

/// A written pack and the places of its records.
#[derive(Clone, Debug)]
pub struct WrittenPack {
    pub bytes: Vec<u8>,
    pub places: Vec<Places>,
}

impl WrittenPack {
    /// The words of the table, four a file.
    pub fn table(&self) -> Vec<u64> {
        self.places.iter().flat_map(Places::entry).collect()
    }
}

/// Writes a pack, with this mark before each record.
pub fn write_pack(mark: &[u8], files: &[Stored]) -> WrittenPack {
    let mut bytes = (files.len() as u32).to_le_bytes().to_vec();
    let mut places = Vec::new();
    for file in files {
        let start = bytes.len();
        bytes.extend_from_slice(mark);
        let count = bytes.len();
        bytes.extend_from_slice(&path_length(file.path.len(), file.width));
        let path = bytes.len();
        bytes.extend_from_slice(&file.path);
        let size = bytes.len();
        bytes.extend_from_slice(&(file.data.len() as u32).to_le_bytes());
        let data = bytes.len();
        bytes.extend_from_slice(&file.data);
        let end = bytes.len();
        places.push(Places {
            start,
            count,
            path,
            size,
            data,
            end,
        });
    }
    WrittenPack { bytes, places }
}

/// A path's length as a seven-bit number of at least so many bytes.
pub fn path_length(length: usize, width: usize) -> Vec<u8> {
    let value = length as u32;
    seven_bytes(Seven { value, width })
}

/// Puts another file count into the first four bytes.
pub fn set_count(pack: &mut [u8], count: u32) {
    pack[..4].copy_from_slice(&count.to_le_bytes());
}
