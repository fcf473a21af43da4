//! Damage whose outcome is not foretold.

use crate::random::Random;
use corpus::writer::{set_length, seven_bytes, Field, Role, Seven, Written};

/// Damages a written file once to a few times; the header's length is mostly set right again.
pub fn damaged(random: &mut Random, written: &Written) -> Vec<u8> {
    let mut bytes = written.bytes.clone();
    match random.below(10) {
        0..=4 => bytes = with_damaged_field(random, written),
        5 => bytes = with_exchanged_fields(random, written),
        _ => {}
    }
    for _ in 0..random.below(3) {
        let start = if random.chance(70) {
            values_start(written)
        } else {
            0
        };
        damage_bytes(random, &mut bytes, start);
    }
    if random.chance(97) {
        set_length(&mut bytes, 0);
    }
    bytes
}

/// Any bytes behind a right header.
pub fn noise(random: &mut Random) -> Vec<u8> {
    let mut bytes = b"XNBw\x05\x00\0\0\0\0".to_vec();
    let count = random.below(60);
    let limit = random.pick(&[2, 4, 16, 256]);
    bytes.extend((0..count).map(|_| random.below(limit) as u8));
    set_length(&mut bytes, 0);
    bytes
}

/// Where the reader list ends.
fn values_start(written: &Written) -> usize {
    let is_shared_count = |field: &&Field| field.role == Role::SharedCount;
    let shared_count = written.fields.iter().find(is_shared_count);
    shared_count.map_or(0, |field| field.start)
}

/// The file with two fields of one role exchanged.
fn with_exchanged_fields(random: &mut Random, written: &Written) -> Vec<u8> {
    let one = random.pick(&written.fields);
    let other = same_role(random, written, one);
    let (first, second) = if one.start < other.start {
        (one, other)
    } else {
        (other, one)
    };
    let old = &written.bytes;
    let mut bytes = replaced(old, second, &old[first.start..first.end]);
    if first.start < second.start {
        bytes = replaced(&bytes, first, &old[second.start..second.end]);
    }
    bytes
}

/// The file with one field replaced.
fn with_damaged_field(random: &mut Random, written: &Written) -> Vec<u8> {
    let field = random.pick(&written.fields);
    let own = written.bytes[field.start..field.end].to_vec();
    let new = match field.role {
        Role::FreeTypeId | Role::BoundTypeId | Role::ResourceId | Role::TextCount => {
            match random.below(4) {
                0 => same_role_bytes(random, written, field),
                1 => overlong(random, own),
                2 => seven(random, 70),
                _ => seven(random, 4),
            }
        }
        Role::ReaderCount | Role::SharedCount | Role::NameLength => match random.below(3) {
            0 => overlong(random, own),
            1 => seven(random, 300),
            _ => seven(random, 3),
        },
        Role::ElementCount
        | Role::LevelCount
        | Role::Side
        | Role::SurfaceFormat
        | Role::IndexSize(_)
        | Role::Stride
        | Role::ElementFormat
        | Role::ElementUsage
        | Role::VertexCount(_) => changed_number(random, own),
        _ => same_role_bytes(random, written, field),
    };
    replaced(&written.bytes, field, &new)
}

fn replaced(bytes: &[u8], field: Field, new: &[u8]) -> Vec<u8> {
    let mut result = bytes[..field.start].to_vec();
    result.extend_from_slice(new);
    result.extend_from_slice(&bytes[field.end..]);
    result
}

fn seven(random: &mut Random, limit: usize) -> Vec<u8> {
    let value = random.below(limit) as u32;
    let width = random.below(6);
    seven_bytes(Seven { value, width })
}

/// Any field with the same role.
fn same_role(random: &mut Random, written: &Written, field: Field) -> Field {
    let same = |other: &&Field| other.role == field.role;
    let fields: Vec<&Field> = written.fields.iter().filter(same).collect();
    *random.pick(&fields)
}

fn same_role_bytes(random: &mut Random, written: &Written, field: Field) -> Vec<u8> {
    let other = same_role(random, written, field);
    written.bytes[other.start..other.end].to_vec()
}

/// The same number with zero groups behind it, up to six bytes.
fn overlong(random: &mut Random, number: Vec<u8>) -> Vec<u8> {
    let mut bytes = number;
    let width = bytes.len() + 1 + random.below(6 - bytes.len().min(5));
    while bytes.len() < width {
        *bytes.last_mut().expect("a number has a byte") |= 0x80;
        bytes.push(0);
    }
    bytes
}

/// A four-byte number made a little larger or smaller, or any other.
fn changed_number(random: &mut Random, number: Vec<u8>) -> Vec<u8> {
    let old = u32::from_le_bytes([number[0], number[1], number[2], number[3]]);
    let new = match random.below(4) {
        0 => old.wrapping_add(1),
        1 => old.wrapping_sub(1),
        2 => random.between(0, 20),
        _ => random.number() as u32,
    };
    new.to_le_bytes().to_vec()
}

/// Damages some bytes behind the start.
fn damage_bytes(random: &mut Random, bytes: &mut Vec<u8>, start: usize) {
    let edges = [0, 1, 2, 0x7F, 0x80, 0x81, 0xC2, 0xED, 0xF0, 0xFF];
    let name_bytes = b"`12[],.+_ aA~";
    let start = start.min(bytes.len());
    let place = start + random.below(bytes.len() - start + 1);
    let span = random.below(4) + 1;
    let end = (place + span).min(bytes.len());
    match random.below(9) {
        0 => bytes.truncate(place),
        1 => {
            let new = random.bytes(span);
            bytes.splice(place..end, new);
        }
        2 => {
            bytes.drain(place..end);
        }
        3 => {
            let copy = bytes[place..end].to_vec();
            bytes.splice(end..end, copy);
        }
        4 => set(bytes, place, random.pick(&edges)),
        5 => set(bytes, place, random.pick(name_bytes)),
        6 => set(bytes, place, random.byte()),
        _ => {
            if let Some(byte) = bytes.get_mut(place) {
                *byte ^= 1 << random.below(8);
            }
        }
    }
}

fn set(bytes: &mut [u8], place: usize, new: u8) {
    if let Some(byte) = bytes.get_mut(place) {
        *byte = new;
    }
}
