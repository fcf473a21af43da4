//! Packs that must be accepted or refused, each for one rule of Req 01.

use super::sample::{accepted, refused, PackSample, FULL_TABLE};
use super::{set_count, stored, write_pack, Form, Stored, WrittenPack, NO_MARK, PLAIN};
use crate::lawful::{file_a, file_b};
use crate::writer::write;

pub fn samples() -> Vec<PackSample> {
    let mut samples = lawful(PLAIN);
    samples.extend(cut());
    samples.extend(numbers());
    samples.extend(texts());
    samples.extend(left_over());
    samples.extend(no_room());
    samples
}

/// Packs of one form that must be accepted.
pub fn lawful(form: Form) -> Vec<PackSample> {
    let doors = [
        stored("Fonts\\Door", "one"),
        stored("fonts\\door", "two"),
        stored("FONTS\\DOORS", "three"),
    ];
    let umlauts = [stored("Tür", "small"), stored("TÜR", "large")];
    let neighbours = [
        stored("@[", "1"),
        stored("`{", "2"),
        stored("AZ", "3"),
        stored("az", "4"),
        stored("09", "5"),
    ];
    let mut broken = write(&file_a()).bytes;
    broken.pop();
    let files = [
        stored("a", write(&file_a()).bytes),
        stored("b", write(&file_b()).bytes),
        stored("a without its last byte", broken),
    ];
    let lengths = [
        stored("p", "1"),
        stored("q".repeat(127), "127"),
        stored("r".repeat(128), "128"),
        stored("s".repeat(260), "260"),
    ];
    let inner = write_pack(NO_MARK, &doors).bytes;
    let inside = [stored("inner.pak", inner), stored("Door", "outer")];
    let last_empty = [stored("first", ""), stored("last", "")];
    vec![
        accepted(form, "of-no-file", &[], &[b"a", b""]),
        accepted(form, "of-one-file", &[stored("a", "data")], &[b"A", b"b"]),
        accepted(form, "of-xnb-files", &files, &[b"a", b"B"]),
        accepted(
            form,
            "mixed-case",
            &doors,
            &[
                b"fonts\\door",
                b"FONTS\\doors",
                b"fonts/door",
                b"fonts\\doo",
                b"",
            ],
        ),
        accepted(
            form,
            "letters-of-two-bytes",
            &umlauts,
            &["tür".as_bytes(), "tÜR".as_bytes(), b"t\xC3\xBC", b"t\xFFr"],
        ),
        accepted(
            form,
            "beside-the-letters",
            &neighbours,
            &[b"`{", b"@[", b"@{", b"az", b"AZ", b"09", b"\x10\x19"],
        ),
        accepted(
            form,
            "paths-of-every-length",
            &lengths,
            &[
                b"P",
                "R".repeat(128).as_bytes(),
                "S".repeat(260).as_bytes(),
                "s".repeat(261).as_bytes(),
            ],
        ),
        accepted(form, "inside-another", &inside, &[b"DOOR", b"fonts\\door"]),
        accepted(form, "empty-data-at-the-end", &last_empty, &[b"LAST"]),
        padded(form),
    ]
}

/// The same path with its length in one to five bytes.
fn padded(form: Form) -> PackSample {
    let file = |width| Stored {
        width,
        ..stored("door", format!("{width} bytes"))
    };
    let files: Vec<Stored> = (1..=5).map(file).collect();
    accepted(form, "path-lengths-in-1-to-5-bytes", &files, &[b"DOOR"])
}

/// Two files that every damaged pack starts from.
fn two() -> WrittenPack {
    write_pack(NO_MARK, &[stored("one", "1111"), stored("two", "22222")])
}

/// A pack that is refused with a table for 4,096 files lent.
fn bad(name: &str, number: u32, place: usize, bytes: &[u8]) -> PackSample {
    let name = format!("pack-{name}");
    refused(&name, number, place, FULL_TABLE, bytes.to_vec())
}

/// A pack of one file whose record has these bytes, which is refused at the record's start.
fn bad_record(name: &str, number: u32, record: &[u8]) -> PackSample {
    bad(name, number, 4, &[&[1, 0, 0, 0], record].concat())
}

/// 1: a field runs past the end.
fn cut() -> Vec<PackSample> {
    let WrittenPack { bytes, places } = two();
    let [one, two] = [places[0], places[1]];
    vec![
        bad("of-no-byte", 1, 0, &[]),
        bad("file-count-cut", 1, 0, &[0, 0, 0]),
        bad("without-its-second-file", 1, two.start, &bytes[..one.end]),
        bad_record("path-length-cut", 1, &[0x83]),
        bad_record(
            "path-length-cut-after-four-bytes",
            1,
            &[0x81, 0x80, 0x80, 0x80],
        ),
        bad("path-cut", 1, two.count, &bytes[..two.size - 1]),
        bad("without-a-path", 1, two.count, &bytes[..two.path]),
        bad_record("path-cut-and-not-text", 1, b"\x03\xFF\xFE"),
        bad("without-a-size", 1, two.size, &bytes[..two.size]),
        bad("size-cut", 1, two.size, &bytes[..two.data - 1]),
        bad("without-data", 1, two.size, &bytes[..two.data]),
        bad("data-cut", 1, two.size, &bytes[..two.end - 1]),
        bad("largest-size", 1, 6, b"\x01\0\0\0\x01p\xFF\xFF\xFF\xFFdata"),
    ]
}

/// 8 and 9: path lengths and the file count.
fn numbers() -> Vec<PackSample> {
    let many = |count: u32| [&count.to_le_bytes()[..], &two().bytes[4..]].concat();
    let long = |length| write_pack(NO_MARK, &[stored("p".repeat(length), "data")]).bytes;
    vec![
        bad_record(
            "fifth-byte-of-path-length",
            8,
            b"\x81\x80\x80\x80\x10p\0\0\0\0",
        ),
        bad_record("fifth-byte-goes-on", 8, b"\x81\x80\x80\x80\x80\0p\0\0\0\0"),
        bad_record("empty-path", 9, b"\0\0\0\0\0"),
        bad_record("empty-path-in-two-bytes", 9, b"\x80\0\0\0\0\0"),
        bad("path-of-261-bytes", 9, 4, &long(261)),
        bad_record("path-too-long-and-missing", 9, b"\x85\x02"),
        bad_record("largest-path-length", 9, b"\xFF\xFF\xFF\xFF\x0Fp"),
        bad("4097-files", 9, 0, &many(4097)),
        bad("largest-file-count", 9, 0, &many(u32::MAX)),
        refused("pack-too-many-files-and-no-table", 9, 0, 0, many(4097)),
    ]
}

/// 15: paths that are not UTF-8.
fn texts() -> Vec<PackSample> {
    let path = |path: &[u8]| write_pack(NO_MARK, &[stored(path, "data")]).bytes;
    vec![
        bad("path-surrogate", 15, 4, &path(b"a\xED\xA0\x80")),
        bad("path-ends-in-lead", 15, 4, &path(b"door\xC3")),
        bad("path-past-10ffff", 15, 4, &path(b"\xF4\x90\x80\x80")),
        bad_record("path-not-text-and-no-size", 15, b"\x02\xC0\x80"),
    ]
}

/// 20: bytes behind the last file.
fn left_over() -> Vec<PackSample> {
    let WrittenPack { bytes, places } = two();
    let mut fewer = bytes.clone();
    set_count(&mut fewer, 1);
    vec![
        bad(
            "one-byte-more",
            20,
            bytes.len(),
            &[&bytes[..], &[0]].concat(),
        ),
        bad("one-file-more", 20, places[1].start, &fewer),
        bad("of-no-file-and-a-byte", 20, 4, &[0; 5]),
    ]
}

/// 31: the table has no room, at the file's start before its path.
fn no_room() -> Vec<PackSample> {
    let WrittenPack { bytes, places } = two();
    let second = places[1];
    let mut broken = bytes.clone();
    broken[second.count] = 0;
    let mut earlier = bytes.clone();
    earlier[places[0].path] = 0xFF;
    let at_end = bytes[..second.start].to_vec();
    let place = second.start;
    vec![
        refused("pack-no-table", 31, 4, 0, bytes.clone()),
        refused("pack-three-words", 31, 4, 3, bytes.clone()),
        refused("pack-seven-words", 31, place, 7, bytes),
        refused("pack-before-an-empty-path", 31, place, 4, broken),
        refused("pack-where-no-byte-is-left", 31, place, 4, at_end),
        refused("pack-path-before-no-room", 15, 4, 4, earlier),
    ]
}
