//! Marked packs by Req 10: the lawful packs of Req 01 with marks, and faults of the marks.

use super::sample::{refused, PackSample, FULL_TABLE};
use super::samples::lawful;
use super::{stored, write_pack, Form, WrittenPack};

/// The form of Req 10.
pub const MARKED: Form = Form {
    mark: &[0xFD, 0xFE],
    name: "marked",
    topic: "marked",
    extension: "marked",
};

/// `ok-marked-NAME` has the files of `ok-pack-NAME`.
pub fn samples() -> Vec<PackSample> {
    let mut samples = lawful(MARKED);
    samples.extend(faults());
    samples
}

fn bad(name: &str, number: u32, place: usize, words: usize, bytes: &[u8]) -> PackSample {
    let name = format!("marked-{name}");
    refused(&name, number, place, words, bytes.to_vec())
}

/// 1, 31 and 51 at a mark, and the path's faults behind it.
fn faults() -> Vec<PackSample> {
    let files = [stored("one", "1111"), stored("two", "22222")];
    let WrittenPack { bytes, places } = write_pack(MARKED.mark, &files);
    let second = places[1].start;
    let with = |end: &[u8]| [&bytes[..second], end].concat();
    let at_second = |name, number, words, end: &[u8]| bad(name, number, second, words, &with(end));
    let plain = write_pack(&[], &files).bytes;
    let count = second + 2;
    vec![
        at_second("without-its-second-file", 1, FULL_TABLE, b""),
        at_second("half-a-mark", 1, FULL_TABLE, b"\xFD"),
        at_second("one-wrong-byte", 1, FULL_TABLE, b"x"),
        at_second("first-byte-wrong", 51, FULL_TABLE, b"\xFC\xFE\x01a\0\0\0\0"),
        at_second(
            "second-byte-wrong",
            51,
            FULL_TABLE,
            b"\xFD\xFF\x01a\0\0\0\0",
        ),
        at_second("bytes-exchanged", 51, FULL_TABLE, b"\xFE\xFD\x01a\0\0\0\0"),
        at_second("wrong-before-an-empty-path", 51, FULL_TABLE, b"\0\0\0"),
        at_second("no-room-before-a-wrong-mark", 31, 7, b"\0\0\0"),
        at_second("no-room-before-half-a-mark", 31, 7, b"\xFD"),
        bad("no-marks", 51, 4, FULL_TABLE, &plain),
        bad("path-length-cut", 1, count, FULL_TABLE, &with(b"\xFD\xFE")),
        bad(
            "mark-twice",
            9,
            count,
            FULL_TABLE,
            &with(b"\xFD\xFE\xFD\xFE\x01a"),
        ),
        bad("empty-path", 9, count, FULL_TABLE, &with(b"\xFD\xFE\0")),
        bad(
            "left-over",
            20,
            bytes.len(),
            FULL_TABLE,
            &[&bytes[..], b"\xFD"].concat(),
        ),
    ]
}
