//! Damaged marked packs, and what is kept and skipped when they are salvaged by Req 11.
//!
//! The answers of a sample are lines in file order:
//!
//! ```text
//! kept 4 12
//! skipped 16 3
//! ```
//!
//! with the start and the length of each kept record and of each skipped stretch, or one line as
//! `refused 1 at 0`.

use super::marked::MARKED;
use super::{stored, write_pack};

pub struct SalvageSample {
    pub name: String,
    pub bytes: Vec<u8>,
    pub answers: String,
}

/// The pack that is written and the list of stretches, or a refusal and its place.
pub type SalvageAnswer = Result<(Vec<u8>, Vec<u64>), (u32, u64)>;

impl SalvageSample {
    /// What the lines say.
    pub fn expected(&self) -> SalvageAnswer {
        let (mut kept, mut list, mut count) = (Vec::new(), Vec::new(), 0u32);
        for line in self.answers.lines() {
            let words: Vec<&str> = line.split(' ').collect();
            let number = |word: &str| word.parse::<u64>().expect("a number");
            match words[..] {
                ["kept", start, length] => {
                    let start = number(start) as usize;
                    kept.extend_from_slice(&self.bytes[start..][..number(length) as usize]);
                    count += 1;
                }
                ["skipped", start, length] => list.extend([number(start), number(length)]),
                ["refused", refusal, "at", place] => {
                    return Err((number(refusal) as u32, number(place)));
                }
                _ => panic!("{}: {line}", self.name),
            }
        }
        let mut out = count.to_le_bytes().to_vec();
        out.extend(kept);
        Ok((out, list))
    }
}

/// Bytes behind the count.
enum Piece {
    Kept(Vec<u8>),
    Skipped(Vec<u8>),
}

use Piece::{Kept, Skipped};

/// A record with its mark.
fn record(path: &str, data: impl Into<Vec<u8>>) -> Vec<u8> {
    write_pack(MARKED.mark, &[stored(path, data)])
        .bytes
        .split_off(4)
}

fn kept(path: &str, data: &str) -> Piece {
    Kept(record(path, data))
}

fn skipped(bytes: &[u8]) -> Piece {
    Skipped(bytes.to_vec())
}

/// A pack of these pieces, of which no two that touch are skipped.
fn sample(name: &str, count: u8, pieces: Vec<Piece>) -> SalvageSample {
    let mut bytes = vec![count, 0, 0, 0];
    let mut answers = String::new();
    for piece in pieces {
        let (word, piece) = match piece {
            Kept(piece) => ("kept", piece),
            Skipped(piece) => ("skipped", piece),
        };
        answers += &format!("{word} {} {}\n", bytes.len(), piece.len());
        bytes.extend(piece);
    }
    SalvageSample {
        name: format!("salvage-{name}"),
        bytes,
        answers,
    }
}

pub fn samples() -> Vec<SalvageSample> {
    let one = || kept("one", "1111");
    let two = || kept("two", "22222");
    let large = |data: &str| {
        let mut bytes = record("large", data);
        // The highest byte of its size.
        bytes[11] = 0x7F;
        Skipped(bytes)
    };
    let cut = |length| {
        let mut bytes = record("last", "333333");
        bytes.truncate(length);
        Skipped(bytes)
    };
    let inner = write_pack(MARKED.mark, &[stored("in", "ner")]).bytes;
    let around = |mark: &[u8]| {
        let mut bytes = record("outer", inner.clone());
        bytes.truncate(bytes.len() - inner.len());
        bytes[..2].copy_from_slice(mark);
        bytes.extend_from_slice(&inner[..4]);
        Skipped(bytes)
    };
    let three_bytes = SalvageSample {
        name: "salvage-three-bytes".to_string(),
        bytes: vec![0; 3],
        answers: "refused 1 at 0\n".to_string(),
    };
    let padded_length = SalvageSample {
        name: "salvage-padded-length".to_string(),
        bytes: b"\x09\x09\x09\x09\x07\xFD\xFE\x02ab\x01\0\0\0X\xFD\xFD\xFE\x81\0A\0\0\0\0".to_vec(),
        answers: "skipped 4 1\nkept 5 10\nskipped 15 1\nkept 16 9\n".to_string(),
    };
    let mut shortened = record("one", "1111");
    shortened.pop();
    let mut swallowed = shortened.clone();
    swallowed.push(0xFD);
    let rest = record("two", "22222").split_off(1);
    let mut smaller = record("one", "11");
    let spared = smaller.len();
    smaller.extend(b"11");
    vec![
        three_bytes,
        padded_length,
        sample("four-bytes", 7, vec![]),
        sample("whole", 2, vec![one(), two()]),
        sample("wrong-count", 9, vec![one(), two()]),
        sample("no-record", 1, vec![skipped(b"no record at all")]),
        sample("size-too-large", 3, vec![one(), large("x"), two()]),
        sample(
            "size-too-small",
            2,
            vec![
                Kept(smaller[..spared].to_vec()),
                skipped(&smaller[spared..]),
                two(),
            ],
        ),
        sample(
            "lost-a-byte",
            3,
            vec![Kept(swallowed), Skipped(rest), kept("next", "")],
        ),
        sample("cut-in-its-mark", 2, vec![one(), cut(1)]),
        sample("cut-in-a-path", 2, vec![one(), cut(5)]),
        sample("cut-in-a-size", 2, vec![one(), cut(9)]),
        sample("cut-in-data", 2, vec![one(), cut(14)]),
        sample(
            "bytes-between-records",
            2,
            vec![
                skipped(b"x"),
                one(),
                skipped(b"\0\0"),
                two(),
                skipped(b"\xFD"),
            ],
        ),
        sample(
            "marks-before-a-record",
            1,
            vec![skipped(b"\xFD\xFE\xFD\xFE\xFD"), one()],
        ),
        sample(
            "record-in-the-size-of-another",
            2,
            vec![skipped(b"\xFD\xFE\x01b"), kept("a", "data"), two()],
        ),
        sample("empty-path", 2, vec![skipped(b"\xFD\xFE\0\0\0\0\0"), one()]),
        sample(
            "path-of-261-bytes",
            2,
            vec![skipped(b"\xFD\xFE\x85\x02pppp"), one()],
        ),
        sample(
            "broken-length",
            2,
            vec![skipped(b"\xFD\xFE\x81\x80\x80\x80\x10"), one()],
        ),
        sample(
            "path-not-text",
            2,
            vec![skipped(b"\xFD\xFE\x01\xFF\0\0\0\0"), one()],
        ),
        sample(
            "marked-pack-as-data",
            1,
            vec![Kept(record("pack", inner.clone())), two()],
        ),
        sample(
            "inner-pack-of-a-broken-file",
            2,
            vec![one(), around(b"\xFD\0"), kept("in", "ner"), two()],
        ),
    ]
}
