//! Random reader names (Req 04): with one known fault at each position of the grammar, well formed with heads that 11
//! complains of, damaged at random, and any bytes.

pub mod grammar;
mod heads;
mod written;

pub use written::Due;

use crate::enums::Listed;
use crate::random::Random;
use crate::{lawful_case, some_words, Case, Known};
use corpus::readers::{BYTE, PAGE, STRING};
use corpus::values::{file, null};
use corpus::writer::{write, Part, Role, Seven};

const LONGEST_NAME: usize = 1024;

/// A name of 1 to 1,024 bytes.
#[derive(Clone, Debug)]
pub struct Named {
    pub bytes: Vec<u8>,
    /// Its number, 0 for a good name, and its place from its first byte on, if they are known without a loader.
    pub known: Option<(u32, usize)>,
    /// What is wrong with it, if that is known.
    pub wrong: Option<Wrong>,
}

/// What is wrong with a name.
#[derive(Clone, Debug, PartialEq, Eq)]
pub struct Wrong {
    /// The refusal's number, 11 or 33 to 38.
    pub number: u32,
    /// Where it is wrong, from the name's first byte on.
    pub place: usize,
    /// How many bytes are wrong there: a head's, one, or none at the name's end.
    pub length: usize,
    pub fault: NameFault,
}

/// How a name was made wrong.
#[derive(Clone, Debug, PartialEq, Eq)]
pub enum NameFault {
    /// Another byte, or the name's end, stands where this is due.
    NotDue(Due),
    /// A part of level 9 starts.
    TooDeep,
    /// No reader has this head.
    UnknownReader,
    /// No type has this head, and no listed enum.
    UnknownType,
    /// The argument of Enum has the head of another type.
    OtherType,
    /// The argument of Nullable is no value type, or Nullable.
    NoValueType,
    /// The head takes so many arguments and has others.
    Count { takes: usize, has: usize },
}

/// The name of a seed.
pub fn named(seed: u64) -> Named {
    let mut random = Random::new(seed);
    loop {
        let named = some_name(&mut random);
        if (1..=LONGEST_NAME).contains(&named.bytes.len()) {
            return named;
        }
    }
}

fn some_name(random: &mut Random) -> Named {
    let (bytes, known, wrong) = match random.below(20) {
        0..=8 => {
            let (bytes, wrong) = written::with_fault(random);
            (bytes, true, Some(wrong))
        }
        9..=14 => {
            let (bytes, wrong) = heads::name(random, &[]);
            (bytes, true, wrong)
        }
        15..=17 => (damaged(random), false, None),
        _ => (any_bytes(random), false, None),
    };
    let answer = wrong.as_ref().map_or((0, 0), |it| (it.number, it.place));
    Named {
        bytes,
        known: known.then_some(answer),
        wrong,
    }
}

/// A name that is refused with this number in a file under a list.
pub fn wrong_name(random: &mut Random, number: u32, enums: &[Listed]) -> (Vec<u8>, Wrong) {
    loop {
        let (bytes, wrong) = match number {
            11 => heads::name(random, enums),
            _ => {
                let (bytes, wrong) = written::with_fault(random);
                (bytes, Some(wrong))
            }
        };
        let lawful_length = (1..=LONGEST_NAME).contains(&bytes.len());
        if let Some(wrong) = wrong.filter(|it| it.number == number && lawful_length) {
            return (bytes, wrong);
        }
    }
}

/// A well-formed name with a few bytes changed.
fn damaged(random: &mut Random) -> Vec<u8> {
    let levels = random.pick(&[1, 2, 3, 8, 9]);
    let mut name = if random.chance(50) {
        written::write(random, levels).bytes
    } else {
        heads::name(random, &[]).0
    };
    for _ in 0..random.between(1, 3) {
        let place = random.below(name.len() + 1);
        let end = (place + random.below(3)).min(name.len());
        match random.below(4) {
            0 => name.truncate(place),
            1 => {
                name.drain(place..end);
            }
            2 => {
                let copy = name[place..end].to_vec();
                name.splice(end..end, copy);
            }
            _ => {
                let byte = random.pick(b"A12`[],- .\0\x7F");
                name.splice(place..end, [byte]);
            }
        }
    }
    name
}

/// Bytes of which most have a meaning in names.
fn any_bytes(random: &mut Random) -> Vec<u8> {
    let count = 1 + random.below(20);
    let from = random.pick(&[&b"A`1[]"[..], b"A`2[],", b"`12[],A-", b"A, `1[[]]\0"]);
    (0..count).map(|_| random.pick(from)).collect()
}

/// The name of a seed in a file, behind some good readers, with a place in the file.
pub fn case(seed: u64) -> Case {
    let named = named(seed);
    let mut random = Random::new(!seed);
    let names = [BYTE, STRING, PAGE];
    let before = random.below(4);
    let mut readers = names[..before].to_vec();
    readers.extend_from_slice(&["", BYTE]);
    let mut file = file(&readers, null(), vec![]);
    file.readers[before] = reader(&mut random, &named);
    let written = write(&file);
    match named.known {
        Some((0, _)) => lawful_case(&mut random, written),
        known => Case {
            words: some_words(&mut random, written.rows.len()),
            known: known.map(|(number, _)| Known::Refused {
                number,
                place: written.fault.expect("the fault is marked"),
            }),
            bytes: written.bytes,
        },
    }
}

/// A reader of this name; its version may be wrong unless the name is good.
fn reader(random: &mut Random, named: &Named) -> Vec<Part> {
    let fault = named.known.map_or(0, |(_, place)| place);
    let (left, right) = named.bytes.split_at(fault);
    let value = named.bytes.len() as u32;
    let width = random.below(6);
    let good = named.known == Some((0, 0));
    let version = if good { 0 } else { random.byte() & 1 };
    vec![
        Part::Seven(Role::NameLength, Seven { value, width }),
        Part::Data(left.to_vec()),
        Part::Fault,
        Part::Data(right.to_vec()),
        Part::Field(Role::ReaderVersion, vec![version, 0, 0, 0]),
    ]
}
