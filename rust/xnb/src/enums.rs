//! Lists of enum types, which are given with a file.

use crate::explain::{is_head_byte, is_target_name};
use crate::raw;
use crate::refusal::{Refusal, Refused};
use crate::shape::Shape;
use std::fmt::{self, Display, Formatter};

/// A list of enum types and their sizes in bytes, to be given to a [`Loader`](crate::Loader).
///
/// A listed enum has the size that is given here, and it may be the argument of a reader, as in a list of enums.
/// An enum that is not listed has four bytes and is no argument.
///
/// ```
/// use xnb::{EnumFault, EnumList};
///
/// let enums = EnumList::new([("Coach.Door", 1), ("Coach.Screen+Mode", 2)])?;
/// assert_eq!(enums.len(), 2);
/// assert_eq!(enums.size_of("Coach.Door"), Some(1));
/// assert_eq!(enums.as_bytes(), b"\x0ACoach.Door\x01\x11Coach.Screen+Mode\x02");
///
/// let refused = EnumList::new([("Coach.Door", 1), ("Coach.Screen", 3)]).unwrap_err();
/// assert_eq!((refused.entry, refused.fault), (1, Some(EnumFault::Size(3))));
/// # Ok::<(), xnb::EnumsRefused>(())
/// ```
#[derive(Clone, Debug, Default, PartialEq, Eq)]
pub struct EnumList {
    /// For each type a name length byte, the name, a size byte; a load does not refuse them.
    bytes: Vec<u8>,
}

impl EnumList {
    /// A list of these names, each with its size: 1, 2, 4 or 8.
    ///
    /// A name has at most 255 bytes, is a head (letters, digits, `.`, `_` and `+`), is not the name of another type
    /// that the loader knows, and is listed once.
    pub fn new<N: AsRef<[u8]>>(
        types: impl IntoIterator<Item = (N, u8)>,
    ) -> Result<EnumList, EnumsRefused> {
        let mut bytes = Vec::new();
        for (entry, (name, size)) in types.into_iter().enumerate() {
            let name = name.as_ref();
            let Ok(length) = u8::try_from(name.len()) else {
                // An entry before it may be refused.
                EnumList::from_bytes(bytes)?;
                return Err(EnumsRefused {
                    entry,
                    name: String::from_utf8_lossy(name).into_owned(),
                    fault: Some(EnumFault::NameTooLong(name.len())),
                });
            };
            bytes.push(length);
            bytes.extend_from_slice(name);
            bytes.push(size);
        }
        EnumList::from_bytes(bytes)
    }

    /// The list that is written in these bytes: for each type a name length byte, the name, a size byte.
    pub fn from_bytes(bytes: impl Into<Vec<u8>>) -> Result<EnumList, EnumsRefused> {
        let bytes = bytes.into();
        match refused_entry(&bytes) {
            Some(entry) => Err(EnumsRefused::of(&bytes, entry)),
            None => Ok(EnumList { bytes }),
        }
    }

    /// The list as the C entries take it.
    pub fn as_bytes(&self) -> &[u8] {
        &self.bytes
    }

    /// The number of types.
    pub fn len(&self) -> usize {
        entries(&self.bytes).count()
    }

    /// Whether no type is listed.
    pub fn is_empty(&self) -> bool {
        self.bytes.is_empty()
    }

    /// Each name with its size, in the order of the list.
    pub fn types(&self) -> impl Iterator<Item = (&str, u8)> + '_ {
        entries(&self.bytes).map(|(name, size)| {
            let name = std::str::from_utf8(name).expect("a head is ASCII");
            (name, size)
        })
    }

    /// The size of a listed type.
    pub fn size_of(&self, name: impl AsRef<[u8]>) -> Option<u8> {
        size_in(&self.bytes, name.as_ref())
    }
}

/// The first entry of a list that breaks a rule.
#[derive(Clone, Debug, PartialEq, Eq)]
pub struct EnumsRefused {
    /// The entry's number, counted from 0.
    pub entry: usize,
    /// The entry's name, as far as it is there.
    pub name: String,
    /// The rule that it breaks, if that is found.
    pub fault: Option<EnumFault>,
}

/// A rule that an entry of a list breaks.
#[derive(Clone, Copy, Debug, PartialEq, Eq)]
#[non_exhaustive]
pub enum EnumFault {
    /// The list ends in the entry.
    CutShort,
    /// Its size is this one.
    Size(u8),
    /// Its name has no byte.
    EmptyName,
    /// This byte of its name is none of a head.
    NameByte(u8),
    /// Its name has so many bytes.
    NameTooLong(usize),
    /// Its name is that of another type that the loader knows.
    KnownType,
    /// Its name is that of this earlier entry.
    Listed(usize),
}

impl EnumsRefused {
    /// The refusal of an entry of these bytes.
    pub(crate) fn of(bytes: &[u8], entry: usize) -> EnumsRefused {
        EnumsRefused {
            entry,
            name: String::from_utf8_lossy(started_name(bytes, entry)).into_owned(),
            fault: fault(bytes, entry),
        }
    }
}

/// The entry that the library refuses; an empty file is refused after every list.
fn refused_entry(bytes: &[u8]) -> Option<usize> {
    let answer = raw::load_table(Shape::Rows, &[], bytes, &mut []).packed;
    let refused = Refused::check((answer >> 32) as u32, answer as u32).err();
    let refused = refused.filter(|it| it.refusal == Refusal::EnumEntry);
    refused.map(|it| it.place as usize)
}

/// Each whole entry's name and size.
pub(crate) fn entries(mut bytes: &[u8]) -> impl Iterator<Item = (&[u8], u8)> {
    std::iter::from_fn(move || {
        let (name, size, behind) = first_entry(bytes)?;
        bytes = behind;
        Some((name, size))
    })
}

/// The name and the size of the first entry, and the bytes behind it.
fn first_entry(bytes: &[u8]) -> Option<(&[u8], u8, &[u8])> {
    let (length, rest) = bytes.split_first()?;
    let (name, rest) = rest.split_at_checked(usize::from(*length))?;
    let (size, behind) = rest.split_first()?;
    Some((name, *size, behind))
}

/// The size of a listed name.
pub(crate) fn size_in(bytes: &[u8], name: &[u8]) -> Option<u8> {
    let mut listed = entries(bytes).filter(|(listed, _)| *listed == name);
    listed.next().map(|(_, size)| size)
}

/// The name of an entry, as far as the bytes have it.
fn started_name(bytes: &[u8], entry: usize) -> &[u8] {
    let before = entries(bytes).take(entry);
    let start = before.map(|(name, _)| name.len() + 2).sum();
    match bytes.get(start..).and_then(<[u8]>::split_first) {
        Some((length, rest)) => &rest[..rest.len().min(usize::from(*length))],
        None => &[],
    }
}

/// What is wrong with an entry, in the order in which it is judged.
fn fault(bytes: &[u8], entry: usize) -> Option<EnumFault> {
    let Some((name, size)) = entries(bytes).nth(entry) else {
        return Some(EnumFault::CutShort);
    };
    if ![1, 2, 4, 8].contains(&size) {
        return Some(EnumFault::Size(size));
    }
    if name.is_empty() {
        return Some(EnumFault::EmptyName);
    }
    if let Some(byte) = name.iter().find(|byte| !is_head_byte(byte)) {
        return Some(EnumFault::NameByte(*byte));
    }
    if is_target_name(name) {
        return Some(EnumFault::KnownType);
    }
    let mut before = entries(bytes).take(entry);
    before
        .position(|(listed, _)| listed == name)
        .map(EnumFault::Listed)
}

impl Display for EnumFault {
    fn fmt(&self, out: &mut Formatter) -> fmt::Result {
        match self {
            EnumFault::CutShort => write!(out, "the list ends in it"),
            EnumFault::Size(size) => {
                write!(out, "the size is {size}; only 1, 2, 4 and 8 are taken")
            }
            EnumFault::EmptyName => write!(out, "the name is empty"),
            EnumFault::NameByte(byte) => write!(
                out,
                "the name has the byte {byte:02X}; only letters, digits, ., _ and + are taken"
            ),
            EnumFault::NameTooLong(length) => {
                write!(out, "the name has {length} bytes, the limit 255")
            }
            EnumFault::KnownType => write!(out, "a type of this name is known already"),
            EnumFault::Listed(entry) => write!(out, "the name is listed before, as entry {entry}"),
        }
    }
}

/// Such as `entry 1 of the enum list, Coach.Screen: the size is 3; only 1, 2, 4 and 8 are taken`.
impl Display for EnumsRefused {
    fn fmt(&self, out: &mut Formatter) -> fmt::Result {
        write!(out, "entry {} of the enum list", self.entry)?;
        if !self.name.is_empty() {
            write!(out, ", {}", self.name)?;
        }
        match self.fault {
            Some(fault) => write!(out, ": {fault}"),
            None => write!(out, ": it is refused"),
        }
    }
}

impl std::error::Error for EnumsRefused {}
