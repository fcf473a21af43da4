//! Random XNB 5 files, lawful and damaged.
//!
//! `case(seed)` gives one file; equal seeds give equal files.
//! `broken::case(seed)` gives one with a fault, and how it was made.
//! `names::case(seed)` gives a file with one reader name, good or bad.
//! `retyped::case(seed)` gives one with the places of its texts, and `retyped::retyped` puts other texts there.
//! `limits::cases()` gives files at every bound of 01 and just past it.
//! `enums::case(seed)` gives one with a list of enum types that is lent with it, and `enums::limits()` those at bounds.
//! `meshes::case(seed)` gives one with many meshes, and `meshes::limits()` those at bounds.
//! `nullables::case(seed)` gives one with a long list of nullables, and a list of enum types.
//! `padding::case(seed)` gives one whose seven-bit numbers are padded by chosen amounts.
//! `driver::case(seed)` gives one that breaks chosen rules of the driver's profile, and `driver::limits()` those at bounds.
//! `reports::case(seed)` gives a pack to be counted, and `reports::limits()` those at bounds.
//! `xml::exports` gives files to be exported as XML, and `xml::imports` XML to be imported.
//! `tables::case(seed)` gives a table that no loader left, and `tables::in_columns` puts a table into columns.

mod aimed;
mod blind;
pub mod broken;
pub mod driver;
pub mod enums;
pub mod limits;
mod maker;
pub mod meshes;
pub mod names;
pub mod nullables;
pub mod packs;
pub mod padding;
pub mod random;
pub mod reports;
pub mod retyped;
mod shape;
pub mod tables;
pub mod xml;

use corpus::writer::{write, Row, Written, WORDS_PER_ROW};
use maker::{make, Planted};
use random::Random;

/// Words for 1,024 rows, as the builder and `rows` have.
pub const GENEROUS_WORDS: usize = WORDS_PER_ROW * 1024;

/// A file to be loaded with so many lent words.
#[derive(Clone, Debug)]
pub struct Case {
    pub bytes: Vec<u8>,
    pub words: usize,
    /// What every loader must answer, if it is known without one.
    pub known: Option<Known>,
}

#[derive(Clone, Debug, PartialEq, Eq)]
pub enum Known {
    Accepted {
        rows: Vec<Row>,
        readers: usize,
        shared: usize,
        padding: usize,
    },
    Refused {
        number: u32,
        place: usize,
    },
}

/// The case of a seed: a lawful file, one with a known fault, one damaged at random, or noise.
pub fn case(seed: u64) -> Case {
    let mut random = Random::new(seed);
    match random.below(100) {
        0..=29 => {
            let written = write(&make(&mut random, Planted::Nothing, &[]).file);
            lawful_case(&mut random, written)
        }
        30..=69 => aimed::aimed_case(&mut random, &[]),
        70 => Case {
            bytes: blind::noise(&mut random),
            words: some_words(&mut random, 20),
            known: None,
        },
        _ => {
            let planted = some_fault(&mut random);
            let written = write(&make(&mut random, planted, &[]).file);
            Case {
                bytes: blind::damaged(&mut random, &written),
                words: some_words(&mut random, written.rows.len()),
                known: None,
            }
        }
    }
}

/// Mostly no fault.
fn some_fault(random: &mut Random) -> Planted {
    match random.below(10) {
        0 => Planted::WrongResource,
        1 => Planted::BadFont,
        2 => Planted::TooDeep,
        _ => Planted::Nothing,
    }
}

/// A lawful file with room enough.
fn lawful_case(random: &mut Random, written: Written) -> Case {
    Case {
        words: some_words(random, written.rows.len()),
        bytes: written.bytes,
        known: Some(Known::Accepted {
            rows: written.rows,
            readers: written.readers,
            shared: written.shared,
            padding: written.padding,
        }),
    }
}

/// Words for 1,024 rows, or for just these rows and a part of one more.
fn some_words(random: &mut Random, rows: usize) -> usize {
    if rows <= 1024 && random.chance(60) {
        GENEROUS_WORDS
    } else {
        WORDS_PER_ROW * rows + random.below(WORDS_PER_ROW)
    }
}
