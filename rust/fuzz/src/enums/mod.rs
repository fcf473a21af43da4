//! Files with a list of enum types that is lent with them: Req 02.

mod limits;
mod lists;
mod long;
mod sizes;
mod types;

pub use limits::{limits, EnumLimit};
pub(crate) use lists::{bytes_of, damaged, some_enums};
pub use long::{alike, long_list, LongList};

use crate::broken::{names, Broken, Fault};
use crate::maker::{make, Made, Planted, Wish};
use crate::names::{NameFault, Wrong};
use crate::random::Random;
use crate::shape::{Shape, ENUM};
use crate::{aimed, blind, lawful_case, some_words, Case, Known, GENEROUS_WORDS};
use corpus::writer::{write, Written};

/// A listed enum type.
#[derive(Clone, Debug, PartialEq, Eq)]
pub struct Listed {
    pub name: String,
    pub size: u8,
}

/// A file to be loaded, and the list that is lent with it.
#[derive(Clone, Debug)]
pub struct EnumCase {
    pub case: Case,
    /// The lent list.
    pub enums: Vec<u8>,
}

/// The case of a seed; equal seeds give equal cases.
pub fn case(seed: u64) -> EnumCase {
    let mut random = Random::new(seed);
    let enums = lists::some_enums(&mut random);
    match random.below(20) {
        0..=5 => {
            let written = write(&make(&mut random, Planted::Nothing, &enums).file);
            with_list(lawful_case(&mut random, written), &enums)
        }
        6..=9 => aimed::broken_case(&mut random, &enums).into(),
        10..=12 => with_damaged_list(&mut random, &enums).into(),
        13..=14 => without_an_argument(&mut random, &enums).into(),
        15 if random.chance(50) => types::some_case(&mut random, &enums).into(),
        15 => sizes::some_case(&mut random, &enums).into(),
        16..=17 => with_list(damaged_file(&mut random, &enums), &enums),
        18 => with_another_size(&mut random, &enums),
        _ => EnumCase {
            case: unknown(damaged_file(&mut random, &enums)),
            enums: lists::blindly_damaged(&mut random, &enums),
        },
    }
}

/// The broken file of a seed, or the broken list that is lent with a file.
pub fn broken(seed: u64) -> Broken {
    let mut random = Random::new(seed);
    let enums = &lists::some_enums(&mut random)[..];
    match random.below(20) {
        0..=3 => {
            let meshes = true;
            aimed::broken_case(&mut random, Wish { enums, meshes })
        }
        4..=10 => aimed::broken_case(&mut random, enums),
        11..=14 => with_damaged_list(&mut random, enums),
        15..=16 => without_an_argument(&mut random, enums),
        17..=18 => types::some_case(&mut random, enums),
        _ => sizes::some_case(&mut random, enums),
    }
}

impl From<Broken> for EnumCase {
    fn from(broken: Broken) -> EnumCase {
        let Broken { case, enums, .. } = broken;
        EnumCase { case, enums }
    }
}

/// The shape with some of its values exchanged for listed enums.
pub fn with_enums(random: &mut Random, shape: Shape, enums: &[Listed]) -> Shape {
    if enums.is_empty() {
        return shape;
    }
    let is_value = shape.is_raw() || shape.kind == ENUM;
    if shape.arguments.is_empty() && is_value && random.chance(60) {
        return Shape::listed(&enums[random.below(enums.len())]);
    }
    let arguments = shape.arguments.into_iter();
    let arguments = arguments.map(|argument| with_enums(random, argument, enums));
    Shape {
        arguments: arguments.collect(),
        ..shape
    }
}

fn with_list(case: Case, enums: &[Listed]) -> EnumCase {
    let enums = lists::bytes_of(enums);
    EnumCase { case, enums }
}

fn unknown(case: Case) -> Case {
    Case {
        known: None,
        ..case
    }
}

/// A file that is damaged at random, or noise.
fn damaged_file(random: &mut Random, enums: &[Listed]) -> Case {
    let written = write(&make(random, Planted::Nothing, enums).file);
    let bytes = if random.chance(5) {
        blind::noise(random)
    } else {
        blind::damaged(random, &written)
    };
    Case {
        bytes,
        words: some_words(random, written.rows.len()),
        known: None,
    }
}

/// 32: a list with an unlawful entry, before whatever is wrong with the file or the words.
fn with_damaged_list(random: &mut Random, enums: &[Listed]) -> Broken {
    let mut case = match random.below(4) {
        0 => aimed::aimed_case(random, enums),
        1 => damaged_file(random, enums),
        2 => {
            let count = random.below(14);
            let bytes = random.bytes(count);
            let words = GENEROUS_WORDS;
            let known = None;
            Case {
                bytes,
                words,
                known,
            }
        }
        _ => {
            let written = write(&make(random, Planted::Nothing, enums).file);
            lawful_case(random, written)
        }
    };
    if random.chance(30) {
        case.words = random.below(20);
    }
    let list = lists::damaged(random, enums);
    let (number, place) = (32, list.entry);
    case.known = Some(Known::Refused { number, place });
    let (name, fault) = (list.name, list.fault);
    Broken {
        case,
        enums: list.bytes,
        before: Written::default(),
        targets: Vec::new(),
        fault: Some(Fault::Entry { name, fault }),
    }
}

/// 11: a name that stands as an argument is not listed, or listed with another byte.
///
/// It is placed at that argument, the leftmost in the first reader name that has it; a file without one is taken.
fn without_an_argument(random: &mut Random, enums: &[Listed]) -> Broken {
    let made = make(random, Planted::Nothing, enums);
    let written = write(&made.file);
    let mut case = lawful_case(random, written.clone());
    let missing = random.below(enums.len());
    let Some(reader) = first_with_argument(&made, &enums[missing].name) else {
        return Broken {
            enums: lists::bytes_of(enums),
            ..Broken::new(case, &made, written, None)
        };
    };
    let field = names(&written)
        .nth(reader)
        .expect("every reader has a name");
    let name = written.bytes[field.end..field.data_end].to_vec();
    let mut others = enums.to_vec();
    let listed = others.remove(missing);
    if random.chance(70) {
        others.extend(lists::differing(random, &listed, enums));
    }
    let wrong = Wrong {
        number: 11,
        place: argument_place(&name, &listed.name),
        length: listed.name.len(),
        fault: NameFault::UnknownType,
    };
    let (number, place) = (wrong.number, field.end + wrong.place);
    case.known = Some(Known::Refused { number, place });
    let reader = reader + 1;
    let fault = Fault::Name {
        reader,
        name,
        wrong,
    };
    Broken {
        enums: lists::bytes_of(&others),
        ..Broken::new(case, &made, written, Some(fault))
    }
}

/// The number of the first reader that has this listed name in its arguments.
fn first_with_argument(made: &Made, name: &str) -> Option<usize> {
    made.targets
        .iter()
        .position(|target| has_argument(target, name))
}

fn has_argument(shape: &Shape, name: &str) -> bool {
    let is_it = |argument: &Shape| argument.listed.as_ref().is_some_and(|it| it.name == name);
    shape
        .arguments
        .iter()
        .any(|argument| is_it(argument) || has_argument(argument, name))
}

/// Where a reader's name has this head as an argument for the first time; tails have no brackets.
fn argument_place(name: &[u8], head: &str) -> usize {
    let ends = [format!("[{head}]"), format!("[{head},")];
    let is_it = |part: &[u8]| ends.iter().any(|end| part == end.as_bytes());
    let found = name.windows(head.len() + 2).position(is_it);
    found.expect("the name has that argument") + 1
}

/// A lawful file under a list in which one enum has another size.
fn with_another_size(random: &mut Random, enums: &[Listed]) -> EnumCase {
    let written = write(&make(random, Planted::Nothing, enums).file);
    let case = unknown(lawful_case(random, written));
    let mut enums = enums.to_vec();
    let chosen = random.below(enums.len());
    enums[chosen].size = lists::some_size(random);
    with_list(case, &enums)
}
