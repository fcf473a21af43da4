//! Packs at every bound of Req 01 and just past it, and in every order of judging, with known answers.

use super::aimed::NOT_TEXT;
use super::{PackCase, PackKnown};
use corpus::packs::sample::FULL_TABLE;
use corpus::packs::{path_length, set_count, stored, write_pack, Places, Stored, WrittenPack};

/// A case with a name.
pub struct PackLimit {
    pub name: String,
    pub case: PackCase,
}

/// The limits of packs whose records begin with this mark.
pub fn cases(mark: &[u8]) -> Vec<PackLimit> {
    let mut limits = counts(mark);
    limits.extend(rooms(mark));
    limits.extend(path_lengths(mark));
    limits.extend(texts(mark));
    limits.extend(cuts(mark));
    limits.extend(sizes(mark));
    limits.extend(orders(mark));
    if !mark.is_empty() {
        limits.extend(marks(mark));
    }
    limits
}

fn accepted(name: impl Into<String>, words: usize, written: WrittenPack) -> PackLimit {
    PackLimit {
        name: name.into(),
        case: PackCase {
            words,
            known: Some(PackKnown::Accepted(written.table())),
            bytes: written.bytes,
        },
    }
}

fn refused(
    name: impl Into<String>,
    words: usize,
    bytes: Vec<u8>,
    number: u32,
    place: usize,
) -> PackLimit {
    PackLimit {
        name: name.into(),
        case: PackCase {
            bytes,
            words,
            known: Some(PackKnown::Refused { number, place }),
        },
    }
}

/// So many small files, the last without data.
fn files(count: usize) -> Vec<Stored> {
    let file = |number: usize| {
        let data = vec![b'd'; (count - number - 1) % 3];
        stored(format!("Path{number:04}"), data)
    };
    (0..count).map(file).collect()
}

/// The file count.
fn counts(mark: &[u8]) -> Vec<PackLimit> {
    let mut limits = Vec::new();
    for count in [0, 1, 2, 255, 256, 257, 4095, 4096] {
        let written = write_pack(mark, &files(count));
        limits.push(accepted(format!("{count} files"), FULL_TABLE, written));
    }
    for count in [4097, 4098, 5000] {
        let bytes = write_pack(mark, &files(count)).bytes;
        for words in [0, FULL_TABLE, 4 * count] {
            let name = format!("{count} files in {words} words");
            limits.push(refused(name, words, bytes.clone(), 9, 0));
        }
    }
    for bit in 12..32 {
        let mut bytes = write_pack(mark, &files(2)).bytes;
        set_count(&mut bytes, 2 + (1 << bit));
        let name = format!("file count with bit {bit}");
        limits.push(refused(name, FULL_TABLE, bytes, 9, 0));
    }
    for length in 0..4 {
        for words in [0, 3, 8] {
            let name = format!("{length} bytes in {words} words");
            limits.push(refused(name, words, vec![0; length], 1, 0));
        }
    }
    limits
}

/// Tables of just enough words, of more and of fewer.
fn rooms(mark: &[u8]) -> Vec<PackLimit> {
    let mut limits = Vec::new();
    for count in [1, 2, 3, 64, 4095, 4096] {
        let written = write_pack(mark, &files(count));
        for more in [0, 1, 2, 3, 4, 100] {
            let words = 4 * count + more;
            let name = format!("{count} files in {words} words");
            limits.push(accepted(name, words, written.clone()));
        }
        for fewer in [1, 2, 3, 4, 5, 4 * count] {
            let words = (4 * count).saturating_sub(fewer);
            let place = written.places[words / 4].start;
            let name = format!("{count} files in {words} words");
            limits.push(refused(name, words, written.bytes.clone(), 31, place));
        }
    }
    limits
}

/// A pack of two files, the second with these bytes behind its mark.
fn second_record(mark: &[u8], record: &[u8]) -> (Vec<u8>, Places) {
    let WrittenPack { mut bytes, places } = write_pack(mark, &files(2));
    bytes.truncate(places[1].count);
    bytes.extend_from_slice(record);
    (bytes, places[1])
}

/// The path's length: its bounds in every width, and its fifth byte.
fn path_lengths(mark: &[u8]) -> Vec<PackLimit> {
    let mut limits = Vec::new();
    for width in 1..=5 {
        for length in [1, 2, 127, 128, 255, 256, 259, 260] {
            let mut files = files(3);
            files[1].path = vec![b'P'; length];
            files[1].width = width;
            let written = write_pack(mark, &files);
            let name = format!("path of {length} bytes, its length in {width}");
            limits.push(accepted(name, 12, written));
        }
        for length in [0, 261, 262, 300, 16_383, 16_384, 1 << 21, 1 << 28, u32::MAX] {
            let mut record = path_length(length as usize, width);
            record.extend(vec![b'P'; (length as usize).min(300)]);
            record.extend([0; 4]);
            let (bytes, places) = second_record(mark, &record);
            let name = format!("path of {length} bytes, its length in {width}");
            limits.push(refused(name, 8, bytes, 9, places.count));
        }
    }
    for fifth in 1..=255 {
        let record = [0x81, 0x80, 0x80, 0x80, fifth, b'p', 0, 0, 0, 0];
        let (bytes, places) = second_record(mark, &record);
        let number = if fifth <= 0x0F { 9 } else { 8 };
        let name = format!("fifth byte {fifth:02X} of a path's length");
        limits.push(refused(name, 8, bytes, number, places.count));
    }
    limits
}

/// Paths that are no UTF-8, alone and beside letters.
fn texts(mark: &[u8]) -> Vec<PackLimit> {
    let mut limits = Vec::new();
    for wrong in NOT_TEXT {
        for path in [
            wrong.to_vec(),
            [b"a", wrong].concat(),
            [wrong, b"a"].concat(),
        ] {
            let mut files = files(3);
            files[1].path = path;
            let written = write_pack(mark, &files);
            let place = written.places[1].count;
            let name = format!("path {:02X?}", files[1].path);
            limits.push(refused(name, 12, written.bytes, 15, place));
        }
    }
    for text in ["\0", "\u{7F}", "\u{80}", "\u{7FF}", "\u{800}", "\u{D7FF}"] {
        limits.push(named(mark, text));
    }
    for text in [
        "\u{E000}",
        "\u{FEFF}",
        "\u{FFFF}",
        "\u{10000}",
        "\u{10FFFF}",
    ] {
        limits.push(named(mark, text));
    }
    limits
}

/// A file with this path is accepted.
fn named(mark: &[u8], path: &str) -> PackLimit {
    let written = write_pack(mark, &[stored(path, "data")]);
    accepted(format!("path {path:?}"), 4, written)
}

/// A pack that is cut behind any of its bytes.
fn cuts(mark: &[u8]) -> Vec<PackLimit> {
    let mut files = files(3);
    files[0].width = 5;
    files[1].width = 2;
    let WrittenPack { bytes, places } = write_pack(mark, &files);
    let mut limits = Vec::new();
    for end in 0..bytes.len() {
        let place = match places.iter().find(|record| end < record.end) {
            _ if end < 4 => 0,
            Some(record) if end < record.count => record.start,
            Some(record) if end < record.size => record.count,
            Some(record) => record.size,
            None => unreachable!("a record holds every byte behind the count"),
        };
        let name = format!("cut at {end}");
        limits.push(refused(name, 12, bytes[..end].to_vec(), 1, place));
    }
    limits
}

/// Sizes that are larger or smaller than the data.
fn sizes(mark: &[u8]) -> Vec<PackLimit> {
    let mut limits = Vec::new();
    for bit in 0..32 {
        let size = 1u32 << bit;
        let (mut bytes, places) = second_record(mark, b"\x01p");
        let place = bytes.len();
        assert_eq!(place, places.count + 2);
        bytes.extend(size.to_le_bytes());
        bytes.extend(vec![0; (size as usize - 1).min(200)]);
        limits.push(refused(format!("size {size}"), 8, bytes, 1, place));
    }
    for size in [0, 1, 255, 256, 65_535, 65_536, 1 << 20] {
        let written = write_pack(mark, &[stored("p", vec![0xFD; size]), stored("q", "")]);
        limits.push(accepted(
            format!("data of {size} bytes"),
            8,
            written.clone(),
        ));
        let place = written.bytes.len();
        let mut longer = written.bytes;
        longer.push(0);
        limits.push(refused("a byte left over", 8, longer, 20, place));
    }
    limits
}

/// Two faults in one pack: the first in order is given.
fn orders(mark: &[u8]) -> Vec<PackLimit> {
    let two = write_pack(mark, &files(2));
    let second = two.places[1];
    let full = 8;
    let mut limits = Vec::new();

    // Behind the mark of the second record: what stands there, and what it is refused with.
    let faults: [(&str, &[u8], u32); 8] = [
        ("no path", b"", 1),
        ("path length that goes on", b"\xFF\xFF\xFF\xFF", 1),
        ("fifth byte, and no path", b"\xFF\xFF\xFF\xFF\x1F", 8),
        ("too long a path, and no byte of it", b"\x85\x02", 9),
        ("too long a path, not text", b"\x85\x02\xFF\xFF", 9),
        ("empty path, and no size", b"\0", 9),
        ("path cut and not text", b"\x03\xFF\xFF", 1),
        ("path not text, and no size", b"\x02\xFF\xFF", 15),
    ];
    for (name, record, number) in faults {
        let (bytes, places) = second_record(mark, record);
        let no_room = format!("no room before {name}");
        limits.push(refused(name, full, bytes.clone(), number, places.count));
        limits.push(refused(no_room, 7, bytes.clone(), 31, places.start));
        let mut more = bytes;
        set_count(&mut more, 4097);
        limits.push(refused(format!("9 before {name}"), 0, more, 9, 0));
    }
    let data_and_rest = [&b"\x02\xC3\xA4"[..], &[9, 0, 0, 0], b"12345678"].concat();
    let (bytes, places) = second_record(mark, &data_and_rest);
    let size = places.count + 3;
    limits.push(refused("data a byte short", full, bytes, 1, size));

    // The first record's fault comes before all that is wrong behind it.
    let mut first_path = two.bytes.clone();
    first_path[two.places[0].path] = 0xFF;
    let place = two.places[0].count;
    let mut left_over = first_path.clone();
    left_over.push(0);
    limits.push(refused("15 before 31", 4, first_path, 15, place));
    limits.push(refused("15 before 20", full, left_over, 15, place));

    let mut more = two.bytes.clone();
    more.push(0);
    limits.push(refused("31 before 20", 7, more.clone(), 31, second.start));
    limits.push(refused("31 of the first file", 0, more, 31, 4));
    let end = two.bytes.len();
    let mut three = two.bytes.clone();
    set_count(&mut three, 3);
    limits.push(refused("a file missing", 12, three.clone(), 1, end));
    limits.push(refused("31 at the end", 11, three, 31, end));
    let mut one = two.bytes.clone();
    set_count(&mut one, 1);
    limits.push(refused("a file more", 4, one.clone(), 20, second.start));
    set_count(&mut one, 0);
    limits.push(refused("two files more", 0, one, 20, 4));
    limits
}

/// 1 and 51 at the mark.
fn marks(mark: &[u8]) -> Vec<PackLimit> {
    let two = write_pack(mark, &files(2));
    let mut limits = Vec::new();
    for record in &two.places {
        for position in 0..mark.len() {
            for bit in 0..8 {
                let mut bytes = two.bytes.clone();
                bytes[record.start + position] ^= 1 << bit;
                let name = format!("bit {bit} of byte {position} of a mark");
                limits.push(refused(name, 8, bytes, 51, record.start));
            }
        }
    }
    let second = two.places[1].start;
    let with = |end: &[u8]| [&two.bytes[..second], end].concat();
    limits.push(refused("one wrong byte left", 8, with(b"\0"), 1, second));
    limits.push(refused("31 before 51", 4, with(b"\0\0"), 31, second));
    limits.push(refused(
        "31 before half a mark",
        4,
        with(&mark[..1]),
        31,
        second,
    ));
    limits.push(refused(
        "51 where all else is missing",
        8,
        with(b"\0\0"),
        51,
        second,
    ));
    limits.push(refused(
        "51 before an empty path",
        8,
        with(&[0; 7]),
        51,
        second,
    ));
    limits.push(refused(
        "51 before a broken length",
        8,
        with(&[0xFF; 7]),
        51,
        second,
    ));
    let unmarked = write_pack(&[], &files(2)).bytes;
    limits.push(refused("a pack without marks", 8, unmarked, 51, 4));
    limits
}
