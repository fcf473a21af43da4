//! Damaged marked packs, for salvage by Req 11.
//!
//! A pack whose salvage is known is put together from whole records and from bytes at which no
//! record can start. Packs damaged at random come without an answer.

use super::blind::damage;
use super::maker::{some_files, text_of};
use crate::random::Random;
use corpus::packs::{stored, write_pack, Stored};
use std::ops::Range;

pub const MARK: &[u8] = &[0xFD, 0xFE];
const MOST_RECORDS: usize = 4096;
const SIZE_BYTES: usize = 4;

/// A damaged pack, and what its salvage keeps and skips, if that is known without one.
#[derive(Clone, Debug)]
pub struct SalvageCase {
    pub bytes: Vec<u8>,
    pub known: Option<Salvage>,
}

/// Kept records and skipped stretches, in file order.
#[derive(Clone, Debug, Default, PartialEq, Eq)]
pub struct Salvage {
    pub kept: Vec<Range<usize>>,
    pub skipped: Vec<Range<usize>>,
}

/// The case of a seed.
pub fn case(seed: u64) -> SalvageCase {
    let mut random = Random::new(seed);
    match random.below(100) {
        0 => SalvageCase {
            bytes: some_noise(&mut random),
            known: None,
        },
        1 => {
            let count = random.below(4);
            SalvageCase {
                bytes: random.bytes(count),
                known: None,
            }
        }
        2..=49 => {
            let mut bytes = write_pack(MARK, &some_files(&mut random)).bytes;
            for _ in 0..random.below(9) {
                let place = random.below(bytes.len() + 1);
                damage(&mut random, &mut bytes, place);
            }
            SalvageCase { bytes, known: None }
        }
        50 => {
            let count = random.pick(&[4094, 4095, 4096, 4097, 4100]);
            put_together(&mut random, count)
        }
        _ => {
            let count = random.below(9);
            put_together(&mut random, count)
        }
    }
}

/// Bytes that are nearly all parts of records.
fn some_noise(random: &mut Random) -> Vec<u8> {
    let parts: [&[u8]; 7] = [
        MARK,
        b"\xFD",
        b"\xFE",
        b"\x01a",
        b"\0\0\0\0",
        b"\x02\0\0\0",
        b"\x84\x02",
    ];
    let count = random.below(60);
    (0..count)
        .flat_map(|_| random.pick(&parts))
        .copied()
        .collect()
}

/// Any four bytes, then records and other bytes in turn.
fn put_together(random: &mut Random, records: usize) -> SalvageCase {
    let mut pieces = Pieces::new(random.bytes(4));
    let damaged = random.below(100);
    for _ in 0..records {
        if random.below(100) < damaged {
            pieces.skip(&some_damage(random));
        }
        match random.below(10) {
            0 => swallowing(random, &mut pieces),
            1 if records < 50 => nested(random, &mut pieces),
            2 => overlapped(random, &mut pieces),
            _ => pieces.keep(&record(&some_file(random))),
        }
    }
    if random.below(100) < damaged {
        pieces.skip(&some_end(random));
    }
    pieces.case()
}

/// A pack in the making.
struct Pieces {
    bytes: Vec<u8>,
    salvage: Salvage,
}

impl Pieces {
    fn new(count: Vec<u8>) -> Pieces {
        Pieces {
            bytes: count,
            salvage: Salvage::default(),
        }
    }

    /// Adds bytes and answers their places.
    fn add(&mut self, bytes: &[u8]) -> Range<usize> {
        let start = self.bytes.len();
        self.bytes.extend_from_slice(bytes);
        start..self.bytes.len()
    }

    /// Adds a whole record, which is kept unless 4,096 were before it.
    fn keep(&mut self, record: &[u8]) {
        if self.salvage.kept.len() == MOST_RECORDS {
            return self.skip(record);
        }
        let places = self.add(record);
        self.salvage.kept.push(places);
    }

    /// Adds bytes at which no record starts; they are joined to those that they touch.
    fn skip(&mut self, bytes: &[u8]) {
        let places = self.add(bytes);
        match self.salvage.skipped.last_mut() {
            Some(last) if last.end == places.start => last.end = places.end,
            _ if places.is_empty() => {}
            _ => self.salvage.skipped.push(places),
        }
    }

    fn case(self) -> SalvageCase {
        SalvageCase {
            bytes: self.bytes,
            known: Some(self.salvage),
        }
    }
}

/// A record with its mark.
fn record(file: &Stored) -> Vec<u8> {
    write_pack(MARK, std::slice::from_ref(file))
        .bytes
        .split_off(4)
}

/// A file whose data may hold marks and whole packs.
fn some_file(random: &mut Random) -> Stored {
    let mut file = quiet_file(random);
    file.data = match random.below(6) {
        0 => MARK.repeat(random.below(4)),
        1 => write_pack(MARK, &[quiet_file(random), quiet_file(random)]).bytes,
        2 => vec![],
        _ => file.data,
    };
    file
}

/// A file whose record has no byte FD hex behind its mark.
fn quiet_file(random: &mut Random) -> Stored {
    let length = random.pick(&[1, 2, 3, 9]);
    let path = text_of(random, length);
    let count = random.below(20);
    let width = random.below(6);
    Stored {
        width,
        ..stored(path, quiet_bytes(random, count))
    }
}

/// Bytes without FD hex, at none of which a record starts.
fn quiet_bytes(random: &mut Random, count: usize) -> Vec<u8> {
    let other = |byte| if byte == 0xFD { 0xFC } else { byte };
    random.bytes(count).into_iter().map(other).collect()
}

/// A broken start of a record, whatever stands behind it.
const BROKEN: [&[u8]; 10] = [
    b"\xFD\xFF\x01a\0\0\0\0",
    b"\xFE\xFD\x01a\0\0\0\0",
    b"\xFD\xFE\0",
    b"\xFD\xFE\x80\0\0\0\0\0",
    b"\xFD\xFE\x85\x02aaaa",
    b"\xFD\xFE\x81\x80\x80\x80\x10a\0\0\0\0",
    b"\xFD\xFE\xFF\xFF\xFF\xFF\x0F",
    b"\xFD\xFE\x02\xC3\x28\0\0\0\0",
    b"\xFD\xFE\x01a\xFF\xFF\xFF\x7F",
    b"\xFD\xFE\x01a\0\0\0\x80",
];

/// Bytes before a record or other damage.
fn some_damage(random: &mut Random) -> Vec<u8> {
    let count = 1 + random.below(12);
    match random.below(4) {
        0 => quiet_bytes(random, count),
        // With the mark behind them these are a path's length, and too large.
        1 => MARK.repeat(1 + random.below(3)),
        _ => {
            let mut bytes = random.pick(&BROKEN).to_vec();
            bytes.extend(quiet_bytes(random, count));
            bytes
        }
    }
}

/// A record that is cut off by the pack's end.
fn some_end(random: &mut Random) -> Vec<u8> {
    let mut bytes = record(&quiet_file(random));
    bytes.truncate(1 + random.below(bytes.len() - 1));
    bytes
}

/// A record that lost bytes of its data, and so takes as many of the next record, which is lost.
fn swallowing(random: &mut Random, pieces: &mut Pieces) {
    let mut first = quiet_file(random);
    let next = record(&quiet_file(random));
    let lost = 1 + random.below(next.len());
    first.data.extend_from_slice(&next[..lost]);
    pieces.keep(&record(&first));
    pieces.skip(&next[lost..]);
}

/// A record whose size is too large and begins with the mark of another record, which is kept.
fn overlapped(random: &mut Random, pieces: &mut Pieces) {
    let mut outer = quiet_file(random);
    outer.data = vec![];
    let head = record(&outer);
    let count = random.below(20);
    pieces.skip(&head[..head.len() - SIZE_BYTES]);
    // The outer size ends in the inner path's length and first byte, which is not 0.
    pieces.keep(&record(&stored("a", quiet_bytes(random, count))));
}

/// A file that holds a marked pack and whose own record is broken: the inner records are kept.
fn nested(random: &mut Random, pieces: &mut Pieces) {
    let inner: Vec<Stored> = (0..random.below(4)).map(|_| quiet_file(random)).collect();
    let pack = write_pack(MARK, &inner);
    let mut outer = quiet_file(random);
    outer.data = vec![];
    let mut head = record(&outer);
    let size = pack.bytes.len() as u32;
    let end = head.len() - SIZE_BYTES;
    head[end..].copy_from_slice(&size.to_le_bytes());
    let wrong = random.below(2);
    head[wrong] = [0, 0xFF][wrong];
    pieces.skip(&head);
    pieces.skip(&pack.bytes[..4]);
    for places in pack.places {
        pieces.keep(&pack.bytes[places.start..places.end]);
    }
}

/// A marked pack of four files that is cut behind any of its bytes from the fourth on.
pub fn cuts() -> Vec<SalvageCase> {
    let mut random = Random::new(0);
    let files: Vec<Stored> = (0..4).map(|_| quiet_file(&mut random)).collect();
    let written = write_pack(MARK, &files);
    let mut cases = Vec::new();
    for end in 4..=written.bytes.len() {
        let mut pieces = Pieces::new(written.bytes[..4].to_vec());
        for places in &written.places {
            if places.end <= end {
                pieces.keep(&written.bytes[places.start..places.end]);
            } else if places.start < end {
                pieces.skip(&written.bytes[places.start..end]);
            }
        }
        cases.push(pieces.case());
    }
    cases
}

/// Packs of nearly 4,096 records and more, with nothing between them or a byte around each.
pub fn limits() -> Vec<SalvageCase> {
    let mut cases = Vec::new();
    for (count, between) in [4095, 4096, 4097]
        .into_iter()
        .flat_map(|it| [(it, ""), (it, "?")])
    {
        let mut pieces = Pieces::new(vec![0; 4]);
        for number in 0..count {
            pieces.skip(between.as_bytes());
            pieces.keep(&record(&stored(format!("{number}"), "")));
        }
        pieces.skip(between.as_bytes());
        cases.push(pieces.case());
    }
    cases
}

/// A marked pack cut before each byte, with each of its bits flipped, each byte left out, and a byte put before each.
pub fn single_damages() -> Vec<SalvageCase> {
    let mut random = Random::new(1);
    let files: Vec<Stored> = (0..4).map(|_| some_file(&mut random)).collect();
    let whole = write_pack(MARK, &files).bytes;
    let mut cases = Vec::new();
    let mut add = |bytes| cases.push(SalvageCase { bytes, known: None });
    for place in 0..whole.len() {
        add(whole[..place].to_vec());
        for bit in 0..8 {
            let mut bytes = whole.clone();
            bytes[place] ^= 1 << bit;
            add(bytes);
        }
        let mut shorter = whole.clone();
        shorter.remove(place);
        add(shorter);
        for byte in [0, 1, 0xFD, 0xFE] {
            let mut longer = whole.clone();
            longer.insert(place, byte);
            add(longer);
        }
    }
    cases
}
