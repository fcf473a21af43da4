//! 2 to 9 and 12: the header, broken and too large numbers, and the reader list but for bad names.

use super::{bad, faulty_field};
use crate::lawful::{file_a, file_b};
use crate::readers::{list_of, BYTE, PAGE, STRING};
use crate::sample::{refused, refused_bytes, Sample};
use crate::values::*;
use crate::writer::{write, Part, Role};

pub fn samples() -> Vec<Sample> {
    let mut samples = headers();
    samples.extend(lengths());
    samples.extend(broken_counts());
    samples.extend(broken_ids());
    samples.extend(large_counts());
    samples.extend(large_names());
    samples.extend(versions());
    samples
}

/// 2 to 6; a fault further on in the header does not matter.
fn headers() -> Vec<Sample> {
    let starts: [(&str, u32, usize, &[u8; 6]); 5] = [
        ("first-byte", 2, 0, b"xNBi\x05\x00"),
        ("platform", 3, 3, b"XNBi\x04\x00"),
        ("version", 4, 4, b"XNBw\x04\x80"),
        ("compressed", 5, 5, b"XNBw\x05\x81"),
        ("flags", 6, 5, b"XNBw\x05\x02"),
    ];
    let mut samples = Vec::new();
    for (name, number, place, start) in starts {
        let mut file = file_a();
        file.start = *start;
        samples.push(refused_bytes(name, number, place, write(&file).bytes));
    }
    samples
}

/// 7.
fn lengths() -> Vec<Sample> {
    let mut samples = Vec::new();
    for (name, error) in [("length-too-large", 1), ("length-too-small", -1)] {
        let mut file = file_a();
        file.length_error = error;
        samples.push(refused_bytes(name, 7, 6, write(&file).bytes));
    }
    samples
}

const BROKEN: [u8; 5] = [0x80, 0x80, 0x80, 0x80, 0x10];
const BROKEN_AND_LONG: [u8; 6] = [0xFF, 0xFF, 0xFF, 0xFF, 0x8F, 0x00];

/// 8 before the values.
fn broken_counts() -> Vec<Sample> {
    let broken = |role| Part::Field(role, BROKEN.to_vec());
    let mut reader_count = file_a();
    reader_count.reader_count = vec![Part::Fault, broken(Role::ReaderCount)];
    let mut name_length = file_b();
    name_length.readers[0] = vec![Part::Fault, broken(Role::NameLength)];
    let mut shared_count = file_a();
    let long = Part::Field(Role::SharedCount, BROKEN_AND_LONG.to_vec());
    shared_count.shared_count = vec![Part::Fault, long];
    vec![
        refused("reader-count", 8, reader_count),
        refused("name-length", 8, name_length),
        refused("shared-count", 8, shared_count),
    ]
}

/// 8 in values.
fn broken_ids() -> Vec<Sample> {
    let type_id = || faulty_field(0, Role::FreeTypeId, &BROKEN);
    let inner_id = object(1, list(vec![null(), type_id()]));
    let text_count = object(1, faulty_field(13, Role::TextCount, &BROKEN));
    let next = faulty_field(36, Role::ResourceId, &BROKEN);
    let resource_id = object(1, page(null(), rectangle([0; 4]), reference(0), next));
    let texts = list_of("System.String");
    vec![
        bad("type-id", 8, &[BYTE], type_id()),
        bad("type-id-in-list", 8, &[texts], inner_id).further(),
        bad("text-count", 8, &[STRING], text_count),
        bad("resource-id", 8, &[PAGE], resource_id),
    ]
}

/// 9: counts and the program's input.
fn large_counts() -> Vec<Sample> {
    let mut readers_65 = file(&[BYTE; 65], null(), vec![]);
    readers_65.reader_count.insert(0, Part::Fault);
    let mut readers_many = file_a();
    readers_many.reader_count = vec![Part::Fault, seven(Role::ReaderCount, u32::MAX)];
    let mut shared_257 = file::<&str>(&[], null(), vec![null(); 257]);
    // Lawful but for the program's limit: the text count stands at 62 and takes three bytes.
    let long = text(&"x".repeat(32_769 - 65));
    let long = file(&[STRING], object(1, long), vec![]);
    shared_257.shared_count.insert(0, Part::Fault);
    vec![
        refused("65-readers", 9, readers_65),
        refused("4294967295-readers", 9, readers_many).further(),
        refused("257-shared-objects", 9, shared_257),
        refused_bytes("input-of-32769-bytes", 9, 0, write(&long).bytes),
    ]
}

/// 9: name lengths.
fn large_names() -> Vec<Sample> {
    let named = |name: &str| {
        let mut file = file(&[name], null(), vec![]);
        file.readers[0].insert(0, Part::Fault);
        file
    };
    let long = format!("{BYTE},{}", "~".repeat(1024 - BYTE.len()));
    let mut long_and_cut = named("");
    long_and_cut.readers[0] = vec![Part::Fault, seven(Role::NameLength, 1025), Part::End];
    vec![
        refused("empty-name", 9, named("")),
        refused("name-of-1025-bytes", 9, named(&long)),
        refused("name-of-1025-bytes-cut", 9, long_and_cut).further(),
    ]
}

/// 12.
fn versions() -> Vec<Sample> {
    let versioned = |bytes: [u8; 4]| {
        let mut file = file_b();
        file.readers[0].pop();
        file.readers[0].push(Part::Fault);
        let version = Part::Field(Role::ReaderVersion, bytes.to_vec());
        file.readers[0].push(version);
        file
    };
    vec![
        refused("version-1", 12, versioned([1, 0, 0, 0])),
        refused("version-high-byte", 12, versioned([0, 0, 0, 1])).further(),
    ]
}
