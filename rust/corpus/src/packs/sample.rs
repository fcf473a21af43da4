//! A sample of packs: its bytes, and the answers to a reading of it and to lookups in it, in lines.
//!
//! ```text
//! words 16384
//! files 2
//! 0 5 3 12 4
//! 1 17 1 22 0
//! find 446F6F: 12 4
//! find 78: absent
//! ```
//!
//! `words` says how many words are lent as a table. A file's line is its number and the four
//! words of its entry. Behind `find` stand the bytes of a path, then the start and length of the
//! data that it leads to.
//! For a refused pack `refused 31 at 16` stands in place of `files` and of all lines behind it.

use super::{write_pack, Form, Stored, WrittenPack};

/// Words for 4,096 files.
pub const FULL_TABLE: usize = 4 * 4096;

pub struct PackSample {
    pub name: String,
    pub bytes: Vec<u8>,
    /// The expected answers.
    pub answers: String,
}

impl PackSample {
    /// How many words are lent as a table.
    pub fn words(&self) -> usize {
        let line = self.answers.lines().next().expect("a first line");
        let number = line.strip_prefix("words ").expect("the words lent");
        number.parse().expect("a number")
    }

    /// The paths that are looked up.
    pub fn paths(&self) -> Vec<Vec<u8>> {
        let lines = self.answers.lines();
        let finds = lines.filter_map(|line| line.strip_prefix("find "));
        finds.map(path_of).collect()
    }
}

/// What a program's reader answers: the number of files, or a refusal and its place.
pub type ReadAnswer = Result<usize, (u32, u64)>;

impl PackSample {
    /// The lines that a program's reader and its lookup give for this sample.
    ///
    /// The lookup answers start and length of the data. Every word behind the files must be zero.
    pub fn answers_of(
        &self,
        read: impl Fn(&[u8], &mut [u64]) -> ReadAnswer,
        find: impl Fn(&[u8], &[u64], &[u8]) -> Option<(u64, u64)>,
    ) -> String {
        let words = self.words();
        let mut table = vec![u64::MAX; words];
        let answer = read(&self.bytes, &mut table);
        let used = answer.map_or(0, |files| 4 * files);
        assert!(table[used..].iter().all(|&word| word == 0), "{}", self.name);
        let mut lines = format!("words {words}\n");
        lines += &match answer {
            Ok(files) => table_lines(files, &table),
            Err((number, place)) => refusal_line(number, place),
        };
        for path in self.paths() {
            lines += &find_line(&path, find(&self.bytes, &table, &path));
        }
        lines
    }
}

/// The path before the colon.
fn path_of(line: &str) -> Vec<u8> {
    let (digits, _) = line.split_once(':').expect("an answer behind the path");
    let (pairs, _) = digits.as_bytes().as_chunks::<2>();
    let byte = |pair: &[u8; 2]| {
        let pair = std::str::from_utf8(pair).expect("digits");
        u8::from_str_radix(pair, 16).expect("a byte")
    };
    pairs.iter().map(byte).collect()
}

/// A pack that must be accepted as it was written, with paths to look up.
///
/// The data of the first file with the same path but for the case of letters is found.
pub fn accepted(form: Form, name: &str, files: &[Stored], paths: &[&[u8]]) -> PackSample {
    let written = write_pack(form.mark, files);
    let mut answers = format!("words {FULL_TABLE}\n");
    answers += &file_lines(&written);
    for path in paths {
        let same = |file: &Stored| !path.is_empty() && file.path.eq_ignore_ascii_case(path);
        let found = files.iter().position(same).map(|number| {
            let [_, _, start, length] = written.places[number].entry();
            (start, length)
        });
        answers += &find_line(path, found);
    }
    PackSample {
        name: format!("ok-{}-{name}", form.name),
        bytes: written.bytes,
        answers,
    }
}

/// A pack that must be refused at a place, with so many words lent.
pub fn refused(name: &str, number: u32, place: usize, words: usize, bytes: Vec<u8>) -> PackSample {
    PackSample {
        name: format!("bad-{number:02}-{name}"),
        bytes,
        answers: format!("words {words}\n{}", refusal_line(number, place as u64)),
    }
}

fn refusal_line(number: u32, place: u64) -> String {
    format!("refused {number} at {place}\n")
}

fn file_lines(written: &WrittenPack) -> String {
    table_lines(written.places.len(), &written.table())
}

/// The lines of an accepted pack: the number of files, then the entry of each.
fn table_lines(files: usize, table: &[u64]) -> String {
    let mut lines = format!("files {files}\n");
    for (number, entry) in table.chunks_exact(4).take(files).enumerate() {
        let words: Vec<String> = entry.iter().map(u64::to_string).collect();
        lines += &format!("{number} {}\n", words.join(" "));
    }
    lines
}

/// The line of a lookup: start and length of the data, or that the path is absent.
fn find_line(path: &[u8], found: Option<(u64, u64)>) -> String {
    let bytes: String = path.iter().map(|byte| format!("{byte:02X}")).collect();
    match found {
        Some((start, length)) => format!("find {bytes}: {start} {length}\n"),
        None => format!("find {bytes}: absent\n"),
    }
}
