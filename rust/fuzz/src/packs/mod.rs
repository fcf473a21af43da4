//! Random packs of files, lawful and damaged.
//!
//! `case(mark, seed)` gives one pack whose records begin with the mark, an empty one in Req 01;
//! equal seeds give equal packs. `limits::cases(mark)` gives packs at every bound and just past it.

mod aimed;
mod blind;
pub mod huge;
pub mod limits;
pub mod lookups;
mod maker;
pub mod partition;
pub mod salvage;

pub use maker::some_files;

use crate::random::Random;
use corpus::packs::sample::FULL_TABLE;
use corpus::packs::{write_pack, WrittenPack};

/// A pack to be read with so many lent words.
#[derive(Clone, Debug)]
pub struct PackCase {
    pub bytes: Vec<u8>,
    pub words: usize,
    /// What every reader must answer, if it is known without one.
    pub known: Option<PackKnown>,
}

#[derive(Clone, Debug, PartialEq, Eq)]
pub enum PackKnown {
    /// The words of the table, four a file.
    Accepted(Vec<u64>),
    Refused {
        number: u32,
        place: usize,
    },
}

/// The case of a seed: a lawful pack, one with a known fault, or one damaged at random.
pub fn case(mark: &[u8], seed: u64) -> PackCase {
    let mut random = Random::new(seed);
    match random.below(10) {
        0..=2 => {
            let written = write_pack(mark, &some_files(&mut random));
            lawful_case(&mut random, written)
        }
        3..=7 => aimed::aimed_case(&mut random, mark),
        _ => {
            let files = some_files(&mut random);
            let words = some_words(&mut random, files.len());
            PackCase {
                bytes: blind::damaged(&mut random, write_pack(mark, &files)),
                words,
                known: None,
            }
        }
    }
}

/// A lawful pack with room enough.
fn lawful_case(random: &mut Random, written: WrittenPack) -> PackCase {
    PackCase {
        words: some_words(random, written.places.len()),
        known: Some(PackKnown::Accepted(written.table())),
        bytes: written.bytes,
    }
}

/// Words for just these files, for them and a part of one more, or for more.
fn some_words(random: &mut Random, files: usize) -> usize {
    match random.below(10) {
        0..=3 => 4 * files,
        4..=6 => 4 * files + random.below(4),
        7..=8 => 4 * files + random.below(60),
        _ => FULL_TABLE.max(4 * files) + random.below(8),
    }
}
