//! Files with one fault, and how each was made.

use crate::aimed::{broken_case, many_bones};
use crate::maker::{Made, Wish};
use crate::names::Wrong;
use crate::random::Random;
use crate::shape::Shape;
use crate::Case;
use corpus::writer::{Field, Role, Written};

/// A file with one fault, or a list with one that is lent with it.
#[derive(Clone, Debug)]
pub struct Broken {
    pub case: Case,
    /// The lent list of enum types.
    pub enums: Vec<u8>,
    /// The file before it was broken; with a planted fault, the file itself.
    pub before: Written,
    /// The type that each reader reads.
    pub targets: Vec<Target>,
    /// None, where no place for a fault was found.
    pub fault: Option<Fault>,
}

/// A type in words.
#[derive(Clone, Debug)]
pub struct Target {
    pub name: String,
    /// The types that its elements, or its keys and values, are declared to be.
    pub arguments: Vec<String>,
}

/// How a file was broken.
#[derive(Clone, Debug)]
pub enum Fault {
    /// Bytes of the header were changed.
    Header,
    /// Words are lent for so many rows, too few.
    Rows(usize),
    /// So many bytes were added.
    LeftOver(usize),
    /// The file ends in a field or in the data behind it.
    Cut { field: usize },
    /// These bytes stand in the place of a field, or of the field and the data behind it.
    Field { field: usize, bytes: Vec<u8> },
    /// A reader, counted from 1, has this name.
    Name {
        reader: usize,
        name: Vec<u8>,
        wrong: Wrong,
    },
    /// The file was made with the fault in it.
    Planted,
    /// The last enums of the file have another size than this listed one.
    Resized(u8),
    /// An entry of the list has this name, as far as it is there.
    Entry { name: Vec<u8>, fault: EntryFault },
}

/// How an entry of a list was made wrong.
#[derive(Clone, Copy, Debug, PartialEq, Eq)]
pub enum EntryFault {
    /// The list ends in it.
    CutShort,
    Size(u8),
    EmptyName,
    /// Its name has this byte.
    NameByte(u8),
    /// Its name is that of another type.
    KnownType,
    /// Its name is that of this earlier entry.
    Listed(usize),
}

impl Broken {
    pub(crate) fn new(case: Case, made: &Made, before: Written, fault: Option<Fault>) -> Broken {
        let names = names(&before).map(|field| &before.bytes[field.end..field.data_end]);
        let targets = made.targets.iter().zip(names);
        let targets = targets.map(|(shape, name)| Target::new(shape, name));
        Broken {
            case,
            enums: Vec::new(),
            targets: targets.collect(),
            before,
            fault,
        }
    }
}

impl Target {
    fn new(shape: &Shape, reader_name: &[u8]) -> Target {
        let arguments = shape.arguments.iter();
        Target {
            name: shape.shown(reader_name),
            arguments: arguments.map(|it| it.shown(&[])).collect(),
        }
    }
}

/// The fields in front of the readers' names, which each has behind it.
pub fn names(written: &Written) -> impl Iterator<Item = &Field> {
    let fields = written.fields.iter();
    fields.filter(|field| field.role == Role::NameLength)
}

/// The case of a seed, with meshes where it is odd.
pub fn case(seed: u64) -> Broken {
    let mut random = Random::new(seed);
    match seed % 64 {
        63 => many_bones(&mut random),
        it if it % 2 == 0 => broken_case(&mut random, &[]),
        _ => broken_case(&mut random, Wish::MESHES),
    }
}
