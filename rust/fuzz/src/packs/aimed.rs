//! Damage at one field of a lawful pack, with the refusal that it must meet.

use super::maker::text_of;
use super::{some_files, some_words, PackCase, PackKnown};
use crate::random::Random;
use corpus::packs::{path_length, set_count, write_pack, Places, WrittenPack};

const MOST_FILES: usize = 4096;

/// Bytes that are in no UTF-8 text, whatever stands before and, if it is no byte 80 to BF hex, behind them.
pub const NOT_TEXT: [&[u8]; 18] = [
    b"\x80",
    b"\xBF",
    b"\xC0\x80",
    b"\xC1\xBF",
    b"\xC2",
    b"\xC3\xC3",
    b"\xDF\x7F",
    b"\xE0\x9F\xBF",
    b"\xE2\x82",
    b"\xE2\x28\xA1",
    b"\xED\xA0\x80",
    b"\xED\xBF\xBF",
    b"\xF0\x8F\xBF\xBF",
    b"\xF0\x9F\x98",
    b"\xF4\x90\x80\x80",
    b"\xF5\x80\x80\x80",
    b"\xF8\x88\x80\x80\x80",
    b"\xFF",
];

/// A damaged pack whose refusal is known.
pub fn aimed_case(random: &mut Random, mark: &[u8]) -> PackCase {
    let files = loop {
        let files = some_files(random);
        if !files.is_empty() {
            break files;
        }
    };
    let written = write_pack(mark, &files);
    match random.below(10) {
        0 => bad_count(random, written),
        1 => left_over(random, written),
        2..=3 => no_room(random, written),
        _ => bad_record(random, mark, written),
    }
}

fn case(bytes: Vec<u8>, words: usize, number: u32, place: usize) -> PackCase {
    PackCase {
        bytes,
        words,
        known: Some(PackKnown::Refused { number, place }),
    }
}

/// 1 and 9 at 0, whatever the table; or 1 where a file more is claimed than there is.
fn bad_count(random: &mut Random, written: WrittenPack) -> PackCase {
    let mut bytes = written.bytes;
    let files = written.places.len();
    let words = random.pick(&[0, 3, 4, 4 * files, 4 * files + 9]);
    match random.below(4) {
        0 => {
            bytes.truncate(random.below(4));
            case(bytes, words, 1, 0)
        }
        1 if files < MOST_FILES => {
            let more = 1 + random.below(MOST_FILES - files);
            set_count(&mut bytes, (files + more) as u32);
            let end = bytes.len();
            case(bytes, some_words(random, files + 1), 1, end)
        }
        _ => {
            let any = random.between(4097, u32::MAX);
            let count = random.pick(&[4097, 4098, 8192, 1 << 16, 1 << 31, u32::MAX, any]);
            set_count(&mut bytes, count);
            bytes.truncate(4 + random.below(bytes.len() - 3));
            case(bytes, words, 9, 0)
        }
    }
}

/// 20: bytes after the last file, or a file more than the count says.
fn left_over(random: &mut Random, written: WrittenPack) -> PackCase {
    let mut bytes = written.bytes;
    let files = written.places.len();
    if random.chance(50) {
        let place = bytes.len();
        let count = 1 + random.below(9);
        bytes.extend(random.bytes(count));
        case(bytes, some_words(random, files), 20, place)
    } else {
        let fewer = random.below(files);
        set_count(&mut bytes, fewer as u32);
        let place = written.places[fewer].start;
        case(bytes, some_words(random, fewer), 20, place)
    }
}

/// 31: the table has no room for a file, whatever stands from its start on.
fn no_room(random: &mut Random, written: WrittenPack) -> PackCase {
    let mut bytes = written.bytes;
    let files = written.places.len();
    let mut room = random.below(files);
    let mut place = written.places[room].start;
    if random.chance(20) && files < MOST_FILES {
        room = files;
        place = bytes.len();
        set_count(&mut bytes, files as u32 + 1);
    }
    if random.chance(50) {
        anything_from(random, &mut bytes, place);
    }
    case(bytes, 4 * room + random.below(4), 31, place)
}

/// What stands in a record from one of its fields on.
struct Fault {
    from: usize,
    bytes: Vec<u8>,
    number: u32,
    place: usize,
    /// Whether the pack ends here; else anything follows.
    ends: bool,
}

/// A fault in one record, where all before it is lawful.
fn bad_record(random: &mut Random, mark: &[u8], written: WrittenPack) -> PackCase {
    let number = random.below(written.places.len());
    let record = written.places[number];
    let fault = match random.below(8) {
        0 if !mark.is_empty() => bad_mark(random, mark, record),
        0..=2 => bad_length(random, record),
        3..=4 => bad_path(random, record),
        _ => bad_size(random, record),
    };
    let mut bytes = written.bytes;
    if fault.ends {
        bytes.truncate(fault.from);
        bytes.extend(fault.bytes);
    } else {
        let end = fault.from + fault.bytes.len();
        let behind = bytes.split_off(fault.from);
        bytes.extend(fault.bytes);
        if random.chance(50) {
            bytes.extend(behind);
        }
        if random.chance(70) {
            anything_from(random, &mut bytes, end);
        }
    }
    // The record's own turn comes, but often not the next one's.
    let words = some_words(random, number + 1);
    case(bytes, words, fault.number, fault.place)
}

/// 1 and 51 at the mark.
fn bad_mark(random: &mut Random, mark: &[u8], record: Places) -> Fault {
    let place = record.start;
    let ends = random.chance(50);
    let mut bytes = mark.to_vec();
    if ends {
        bytes.truncate(random.below(mark.len()));
        // Too few bytes are judged before what they are.
        if random.chance(50) {
            let count = bytes.len();
            bytes = random.bytes(count);
        }
    } else if random.chance(30) && mark != [mark[1], mark[0]] {
        bytes.swap(0, 1);
    } else {
        let wrong = random.below(mark.len());
        bytes[wrong] ^= 1 << random.below(8);
    }
    Fault {
        from: place,
        bytes,
        number: if ends { 1 } else { 51 },
        place,
        ends,
    }
}

/// 1, 8 and 9 at the path's length.
fn bad_length(random: &mut Random, record: Places) -> Fault {
    let place = record.count;
    let fault = |bytes, number, ends| Fault {
        from: place,
        bytes,
        number,
        place,
        ends,
    };
    match random.below(4) {
        0 => {
            let count = random.below(5);
            let going_on = random.bytes(count).iter().map(|byte| byte | 0x80).collect();
            fault(going_on, 1, true)
        }
        1 => {
            let mut bytes: Vec<u8> = random.bytes(4).iter().map(|byte| byte | 0x80).collect();
            bytes.push(random.pick(&[0x10, 0x1F, 0x40, 0x7F, 0x80, 0x8F, 0xFF]));
            fault(bytes, 8, false)
        }
        2 => fault(path_length(0, 1 + random.below(5)), 9, false),
        _ => {
            let any = random.between(261, u32::MAX) as usize;
            let length = random.pick(&[261, 262, 300, 512, 516, 1 << 14, 1 << 31, any]);
            fault(path_length(length, random.below(6)), 9, false)
        }
    }
}

/// 1 and 15 of the path's bytes, at its length.
fn bad_path(random: &mut Random, record: Places) -> Fault {
    let place = record.count;
    let mut path = not_text(random);
    let ends = random.chance(50);
    let mut length = path.len();
    if ends {
        // Missing bytes are judged before the text.
        if random.chance(50) {
            let count = random.below(20);
            path = text_of(random, count);
        }
        path.truncate(259);
        length = path.len() + 1 + random.below(260 - path.len());
    }
    let mut bytes = path_length(length, random.below(6));
    bytes.extend(path);
    Fault {
        from: place,
        bytes,
        number: if ends { 1 } else { 15 },
        place,
        ends,
    }
}

/// 1 to 260 bytes that are no UTF-8.
fn not_text(random: &mut Random) -> Vec<u8> {
    let before = random.pick(&[0, 0, 1, 5, 100, 250]);
    let mut path = text_of(random, before);
    path.extend(random.pick(&NOT_TEXT));
    let behind = random.pick(&[0, 0, 1, 5]);
    path.extend(text_of(random, behind));
    path
}

/// 1 at the size, for its own bytes or for the data's.
fn bad_size(random: &mut Random, record: Places) -> Fault {
    let count = random.below(12);
    let mut bytes = if random.chance(40) {
        vec![]
    } else {
        let least = count as u32 + 1;
        let any = random.between(least, u32::MAX);
        let size = random.pick(&[least, least, 1 << 16, 1 << 24, 1 << 31, u32::MAX, any]);
        size.to_le_bytes().to_vec()
    };
    let cut = bytes.is_empty();
    bytes.extend(random.bytes(if cut { count % 4 } else { count }));
    Fault {
        from: record.size,
        bytes,
        number: 1,
        place: record.size,
        ends: true,
    }
}

/// Cuts the bytes at a place and lets anything follow, perhaps nothing.
fn anything_from(random: &mut Random, bytes: &mut Vec<u8>, place: usize) {
    bytes.truncate(place);
    let count = random.pick(&[0, 0, 1, 2, 9, 40]);
    bytes.extend(random.bytes(count));
}
