//! Lists of enum types, lawful and damaged.

use super::Listed;
use crate::broken::EntryFault;
use crate::random::Random;
use crate::shape::UNLISTED;
use corpus::enums::{entry, SIZES, TARGET_NAMES};
use std::collections::BTreeSet;

/// Names that differ little from each other, from target names and from enums that no list has.
const NAMES: [&str; 18] = [
    "Coach.Lamp",
    "Coach.Lamps",
    "Coach.Lamp+State",
    "coach.lamp",
    "Coach.Doo",
    "Coach.Doors",
    "coach.Door",
    "Coach.Console.Pages",
    "Coach.Console",
    "System.Byte1",
    "system.byte",
    "System.Nullabl",
    "System.Collections.Generic.Lists",
    "Microsoft.Xna.Framework.Vector1",
    "_",
    ".",
    "+",
    "9",
];

pub const HEAD_BYTES: &[u8; 65] =
    b"ABCDEFGHIJKLMNOPQRSTUVWXYZabcdefghijklmnopqrstuvwxyz0123456789._+";

/// Some lawful entries.
pub fn some_enums(random: &mut Random) -> Vec<Listed> {
    let count = match random.below(40) {
        0 => 300,
        few => 1 + few % 6,
    };
    let mut names = BTreeSet::new();
    let mut enums = Vec::new();
    while enums.len() < count {
        let name = if random.chance(60) && count < NAMES.len() {
            random.pick(&NAMES).to_string()
        } else {
            any_name(random)
        };
        if names.insert(name.clone()) {
            let size = some_size(random);
            enums.push(Listed { name, size });
        }
    }
    enums
}

pub fn some_size(random: &mut Random) -> u8 {
    random.pick(&SIZES)
}

/// A name of at least three bytes; no table has it.
fn any_name(random: &mut Random) -> String {
    let length = random.pick(&[3, 5, 9, 20, 254, 255]);
    let bytes = (0..length).map(|_| char::from(random.pick(HEAD_BYTES)));
    bytes.collect()
}

pub fn bytes_of(enums: &[Listed]) -> Vec<u8> {
    let entries = enums.iter();
    let bytes = entries.flat_map(|listed| entry(listed.name.as_bytes(), listed.size));
    bytes.collect()
}

/// The same enum with one byte of its name changed, unless that name is a listed or a target name.
pub fn differing(random: &mut Random, listed: &Listed, enums: &[Listed]) -> Option<Listed> {
    let mut bytes = listed.name.clone().into_bytes();
    let place = random.below(bytes.len());
    bytes[place] = random.pick(HEAD_BYTES);
    let name = String::from_utf8(bytes).expect("head bytes are text");
    let taken = enums.iter().any(|other| other.name == name)
        || TARGET_NAMES.contains(&name.as_str())
        || UNLISTED.contains(&name.as_str());
    let size = listed.size;
    (!taken).then_some(Listed { name, size })
}

/// A list with an unlawful entry, and anything behind it.
pub struct Damaged {
    pub bytes: Vec<u8>,
    /// The number of its first unlawful entry.
    pub entry: usize,
    /// The name of that entry, as far as it is there.
    pub name: Vec<u8>,
    pub fault: EntryFault,
}

pub fn damaged(random: &mut Random, enums: &[Listed]) -> Damaged {
    let number = random.below(enums.len());
    let mut bytes = bytes_of(&enums[..number]);
    let (name, fault) = unlawful_entry(random, enums, number, &mut bytes);
    if fault != EntryFault::CutShort {
        match random.below(3) {
            0 => bytes.extend(bytes_of(&enums[number + 1..])),
            1 => {
                let count = random.below(20);
                bytes.extend(random.bytes(count));
            }
            _ => {}
        }
    }
    Damaged {
        bytes,
        entry: number,
        name,
        fault,
    }
}

/// Writes an unlawful entry in the place of this one, and gives its name and its fault.
fn unlawful_entry(
    random: &mut Random,
    enums: &[Listed],
    number: usize,
    bytes: &mut Vec<u8>,
) -> (Vec<u8>, EntryFault) {
    let Listed { name, size } = &enums[number];
    let (mut name, mut size) = (name.as_bytes().to_vec(), *size);
    let fault = match random.below(7) {
        0 => {
            let whole = entry(&name, size);
            let length = 1 + random.below(whole.len() - 1);
            bytes.extend_from_slice(&whole[..length]);
            return (whole[1..length].to_vec(), EntryFault::CutShort);
        }
        1 => {
            let cut = length_past_the_end(random);
            bytes.extend_from_slice(&cut);
            return (cut[1..].to_vec(), EntryFault::CutShort);
        }
        3 => {
            let byte;
            (name, byte) = no_head(random, &name);
            EntryFault::NameByte(byte)
        }
        4 => {
            name.clear();
            EntryFault::EmptyName
        }
        5 => {
            name = random.pick(TARGET_NAMES).as_bytes().to_vec();
            EntryFault::KnownType
        }
        6 if number > 0 => {
            let earlier = random.below(number);
            name = enums[earlier].name.as_bytes().to_vec();
            size = some_size(random);
            EntryFault::Listed(earlier)
        }
        _ => {
            size = bad_size(random);
            EntryFault::Size(size)
        }
    };
    bytes.extend(entry(&name, size));
    (name, fault)
}

/// A length byte with no room for the name and the size behind it.
fn length_past_the_end(random: &mut Random) -> Vec<u8> {
    let length = random.between(1, 255) as u8;
    let mut bytes = vec![length];
    let present = random.below(usize::from(length) + 1);
    bytes.extend((0..present).map(|_| random.pick(HEAD_BYTES)));
    bytes
}

fn bad_size(random: &mut Random) -> u8 {
    loop {
        let (near, any) = (random.between(0, 20) as u8, random.byte());
        let size = random.pick(&[near, any]);
        if !SIZES.contains(&size) {
            return size;
        }
    }
}

/// The name with one byte that no head has, and that byte.
fn no_head(random: &mut Random, name: &[u8]) -> (Vec<u8>, u8) {
    let mut bytes = name.to_vec();
    let place = random.below(bytes.len());
    let byte = random.pick(b" !*,-/:;<=>?@[\\]^`{|}~\0\t\n\x1F\x7F\x80\xC3\xFF");
    bytes[place] = byte;
    (bytes, byte)
}

/// A list with some bytes changed, taken out or put in, or any bytes.
pub fn blindly_damaged(random: &mut Random, enums: &[Listed]) -> Vec<u8> {
    let mut bytes = bytes_of(enums);
    if random.chance(20) {
        let count = random.below(30);
        let limit = random.pick(&[4, 16, 256]);
        return (0..count).map(|_| random.below(limit) as u8).collect();
    }
    for _ in 0..1 + random.below(2) {
        let place = random.below(bytes.len() + 1);
        let end = (place + random.below(4)).min(bytes.len());
        match random.below(4) {
            0 => bytes.truncate(place),
            1 => {
                bytes.drain(place..end);
            }
            2 => {
                let copy = bytes[place..end].to_vec();
                bytes.splice(end..end, copy);
            }
            _ => {
                if let Some(byte) = bytes.get_mut(place) {
                    *byte = random.byte();
                }
            }
        }
    }
    bytes
}
