//! Files for the driver's screen: Req 07.
//!
//! `case(seed)` gives a file that breaks chosen rules of the profile, each alone and with every other, or none of them.
//! `limits()` has files at bounds.

mod limits;
mod maker;

pub use limits::limits;

use crate::enums::{bytes_of, damaged, some_enums, EnumCase, Listed};
use crate::random::Random;
use crate::{blind, some_words, Case, Known};
use corpus::writer::{set_length, write, Field, Role, Written, WORDS_PER_ROW};
use maker::{make, Made};

/// The numbers of the profile's refusals, in order.
pub const OFFENCES: std::ops::RangeInclusive<u32> = 41..=47;

/// Whether a seed's file breaks the rule of this number.
pub fn offends(seed: u64, number: u32) -> bool {
    let any = seed % 128;
    let broken = match seed / 128 % 4 {
        0 => any,
        // The platform and the numbers are lawful.
        1 => any & !0b11,
        // One rule alone, or none.
        2 => 1 << (any % 8),
        _ => 0,
    };
    broken >> (number - 41) & 1 == 1
}

/// A file that breaks the rules of a seed and is not damaged besides.
pub struct Undamaged {
    pub case: EnumCase,
    /// The fields and rows that were written.
    pub written: Written,
    /// The type that each reader reads, in words.
    pub targets: Vec<String>,
    enums: Vec<Listed>,
}

pub fn undamaged(seed: u64) -> Undamaged {
    of_seed(&mut Random::new(seed), seed)
}

fn of_seed(random: &mut Random, seed: u64) -> Undamaged {
    let enums = some_enums(random);
    let made = make(random, &enums, |number| offends(seed, number));
    let written = write(&made.file);
    let words = some_words(random, written.rows.len());
    let known = known(&made, &written, |number| offends(seed, number));
    let case = Case {
        bytes: written.bytes.clone(),
        words,
        known: Some(known),
    };
    let lent = bytes_of(&enums);
    let targets = made.readers.iter().map(|reader| reader.target.shown());
    Undamaged {
        case: EnumCase { case, enums: lent },
        written,
        targets: targets.collect(),
        enums,
    }
}

/// The case of a seed; what is known is the answer of the driver's loader.
pub fn case(seed: u64) -> EnumCase {
    let mut random = Random::new(seed);
    let made = of_seed(&mut random, seed);
    let (written, enums) = (made.written, made.enums);
    let EnumCase {
        case,
        enums: enums_lent,
    } = made.case;
    let words = case.words;
    match random.below(12) {
        0 => with_a_load_fault(&mut random, case, &written, enums_lent),
        1 => {
            let list = damaged(&mut random, &enums);
            refused(case, list.bytes, 32, list.entry)
        }
        2 => {
            let bytes = blind::damaged(&mut random, &written);
            let known = None;
            let case = Case {
                bytes,
                words,
                known,
            };
            EnumCase {
                case,
                enums: enums_lent,
            }
        }
        _ => EnumCase {
            case,
            enums: enums_lent,
        },
    }
}

fn refused(case: Case, enums: Vec<u8>, number: u32, place: usize) -> EnumCase {
    let known = Some(Known::Refused { number, place });
    EnumCase {
        case: Case { known, ..case },
        enums,
    }
}

/// 19 and 20 before all of 41 to 47.
fn with_a_load_fault(
    random: &mut Random,
    mut case: Case,
    written: &Written,
    enums: Vec<u8>,
) -> EnumCase {
    if random.chance(50) {
        let row = random.below(written.rows.len());
        case.words = WORDS_PER_ROW * row + random.below(WORDS_PER_ROW);
        return refused(case, enums, 19, written.rows[row][1] as usize);
    }
    let place = case.bytes.len();
    case.bytes.push(random.byte());
    set_length(&mut case.bytes, 0);
    refused(case, enums, 20, place)
}

/// The driver's answer to a file that breaks these rules and no others.
fn known(made: &Made, written: &Written, offends: impl Fn(u32) -> bool) -> Known {
    match OFFENCES.into_iter().find(|number| offends(*number)) {
        Some(number) => Known::Refused {
            number,
            place: offence_place(made, written, number),
        },
        None => Known::Accepted {
            rows: written.rows.clone(),
            readers: written.readers,
            shared: written.shared,
            padding: 0,
        },
    }
}

/// Where a file first breaks a rule that it is known to break.
fn offence_place(made: &Made, written: &Written, number: u32) -> usize {
    let rows = &written.rows;
    let place = match number {
        41 => Some(3),
        42 => first_padded(written),
        43 => {
            let unused = made.readers.iter().position(|reader| !reader.used);
            unused.map(|position| name_place(written, position))
        }
        44 => {
            let target = |position: usize| &made.readers[position].target;
            let is_later = |later: &usize| (0..*later).any(|it| target(it) == target(*later));
            let later = (0..made.readers.len()).find(is_later);
            later.map(|position| name_place(written, position))
        }
        45 => written.fault,
        46 => Some(rows[0][1] as usize),
        _ => {
            // A page's title, area and picture have a row each.
            let is_page = |number: &usize| rows[*number][0] == 34;
            let pages = (0..rows.len()).filter(is_page);
            let mut nexts = pages.map(|page| rows[page + 4]);
            nexts.find(|next| next[5] == 0).map(|next| next[1] as usize)
        }
    };
    place.unwrap_or_else(|| panic!("the file does not break rule {number}"))
}

/// The first number whose last byte adds nothing.
fn first_padded(written: &Written) -> Option<usize> {
    let is_padded = |field: &&Field| {
        let is_seven = matches!(
            field.role,
            Role::ReaderCount
                | Role::NameLength
                | Role::SharedCount
                | Role::FreeTypeId
                | Role::BoundTypeId
                | Role::ResourceId
                | Role::TextCount
        );
        is_seven && field.end - field.start > 1 && written.bytes[field.end - 1] == 0
    };
    let padded = written.fields.iter().find(is_padded);
    padded.map(|field| field.start)
}

/// The first byte of a reader's name.
fn name_place(written: &Written, position: usize) -> usize {
    let is_length = |field: &&Field| field.role == Role::NameLength;
    let mut lengths = written.fields.iter().filter(is_length);
    lengths.nth(position).expect("every reader has a name").end
}
