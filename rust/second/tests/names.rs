//! Reader names: the table of good and bad ones, each bad one with its number and place.

use corpus::names::Judged;
use second::{load, Refusal};

/// Where the name stands in the files below.
const NAME_PLACE: usize = 13;

/// A file with one reader of this name and a null primary object.
fn file_with_reader(name: &[u8]) -> Vec<u8> {
    let mut file = b"XNBw\x05\x00....\x01".to_vec();
    file.push(name.len() as u8 | 0x80);
    file.push((name.len() >> 7) as u8);
    file.extend_from_slice(name);
    file.extend_from_slice(&[0, 0, 0, 0, 0, 0]);
    let length = file.len() as u32;
    file[6..10].copy_from_slice(&length.to_le_bytes());
    file
}

/// The refusal of a file with this reader name, its place counted from the name's first byte; 0 at 0 for none.
fn verdict(name: &[u8]) -> (u32, usize) {
    let mut words = [9; 7];
    match load(&file_with_reader(name), &[], &mut words) {
        Ok(_) => (0, 0),
        Err(Refusal { number, place }) => {
            assert_eq!(words, [0; 7]);
            (number, place - NAME_PLACE)
        }
    }
}

#[test]
fn table() {
    let names = corpus::names::all();
    assert!(names.len() >= 400, "only {} names", names.len());
    for judged in names {
        let Judged {
            number,
            place,
            name,
        } = judged;
        assert_eq!(verdict(name.as_bytes()), (number, place), "{name}");
    }
}

/// Each fault stands in the table of wrong parts at least five times.
#[test]
fn every_fault_stands_in_the_table_of_parts() {
    let parts = corpus::names::parts::all();
    assert!(parts.len() >= 120, "only {} names", parts.len());
    for number in [11].into_iter().chain(33..=38) {
        let count = parts.iter().filter(|it| it.number == number).count();
        assert!(count >= 10, "{number} stands there {count} times");
    }
}

/// The same name as the second of three readers: places are counted in the file.
#[test]
fn places_are_in_the_file() {
    let before = file_with_reader(b"Coach.Console.PageReader, before");
    let first = &before[11..before.len() - 2];
    for judged in corpus::names::all() {
        let alone = file_with_reader(judged.name.as_bytes());
        let mut file = alone[..10].to_vec();
        file.push(3);
        file.extend_from_slice(first);
        file.extend_from_slice(&alone[11..alone.len() - 2]);
        file.extend_from_slice(first);
        file.extend_from_slice(&[0, 0]);
        let length = file.len() as u32;
        file[6..10].copy_from_slice(&length.to_le_bytes());
        let answer = load(&file, &[], &mut [0; 7]);
        let place = NAME_PLACE + first.len() + judged.place;
        let refusal = answer.err().map(|it| (it.number, it.place));
        let expected = (judged.number > 0).then_some((judged.number, place));
        assert_eq!(refusal, expected, "{}", judged.name);
    }
}

#[test]
fn bytes_of_heads_and_tails() {
    for byte in 0..=255 {
        let in_head = byte == b'.' || byte == b'_' || byte == b'+' || byte.is_ascii_alphanumeric();
        let mut name = b"Unknown".to_vec();
        name.push(byte);
        name.push(b'x');
        let expected = match byte {
            b',' => (11, 0),
            b'`' => (35, 8),
            _ if in_head => (11, 0),
            _ => (34, 7),
        };
        assert_eq!(verdict(&name), expected, "byte {byte} behind a head");

        let expected = if in_head { (11, 0) } else { (33, 0) };
        assert_eq!(verdict(&[byte]), expected, "byte {byte} as a name");

        let in_tail = (0x20..0x7F).contains(&byte) && byte != b'[' && byte != b']';
        let mut name = b"Coach.Console.PageReader,".to_vec();
        name.push(byte);
        let expected = if in_tail { (0, 0) } else { (37, 25) };
        assert_eq!(verdict(&name), expected, "byte {byte} in a tail");

        let mut name = b"A`".to_vec();
        name.push(byte);
        let expected = match byte {
            b'1' | b'2' => (36, 3),
            _ => (35, 2),
        };
        assert_eq!(verdict(&name), expected, "byte {byte} as a digit");

        let mut name = b"A`1[[B]]".to_vec();
        name.push(byte);
        let expected = if byte == b',' { (11, 0) } else { (36, 8) };
        assert_eq!(verdict(&name), expected, "byte {byte} behind brackets");
    }
}

/// A start of a name that is well formed ends too soon, and each is placed at its end.
#[test]
fn every_proper_start_of_a_long_name_is_broken_or_unlawful() {
    let name = corpus::names::nested(8);
    for length in 1..name.len() {
        let start = &name.as_bytes()[..length];
        let expected = match start.last() {
            _ if !start.contains(&b'`') => (11, 0),
            Some(b'`') => (35, length),
            Some(b'[') if start.ends_with(b"[[") => (33, length),
            _ => (36, length),
        };
        assert_eq!(verdict(start), expected, "the first {length} bytes");
    }
}
