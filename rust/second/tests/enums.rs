//! Req 02: the lent list of enum types.

use corpus::enums::{entry, enum_of_size, list_bytes, SIZES, TARGET_NAMES};
use corpus::folder::kept_files_with_enums;
use corpus::lawful::file_a;
use corpus::readers::{enum_of, list_of};
use corpus::values::{file, list, object};
use corpus::writer::write;
use second::{load, load_in, printed_rows_with, reported_padding, rewrite};
use second::{Refusal, Shape, NO_ENUMS, WORDS_PER_ROW};

const GARBAGE: u32 = 0xAAAA_AAAA;

/// What a load of file A with this list is refused with, if it is.
fn refusal(enums: &[u8]) -> Option<(u32, usize)> {
    let mut words = [GARBAGE; WORDS_PER_ROW];
    let answer = load(&write(&file_a()).bytes, enums, &mut words);
    let reported = |Refusal { number, place }| (number, place);
    if answer.is_err() {
        assert_eq!(words, [0; WORDS_PER_ROW]);
    }
    answer.err().map(reported)
}

#[test]
fn kept_files_give_their_rows_and_padding() {
    let mut samples = kept_files_with_enums();
    samples.extend(corpus::enums::samples());
    for sample in samples {
        let name = &sample.name;
        let printed = printed_rows_with(&sample.enums, &sample.bytes);
        assert_eq!(printed, sample.rows, "{name}");
        for shape in Shape::BOTH {
            let mut words = vec![GARBAGE; WORDS_PER_ROW * 1024];
            let answer = load_in(shape, &sample.bytes, &sample.enums, &mut words);
            assert_eq!(reported_padding(answer), sample.padding, "{name}");
        }
    }
}

/// Most samples are answered in another way without their list.
#[test]
fn the_list_matters() {
    let mut changed = 0;
    for sample in kept_files_with_enums() {
        let without = printed_rows_with(NO_ENUMS, &sample.bytes);
        changed += usize::from(without != sample.rows);
    }
    assert!(changed > 100, "only {changed}");
}

#[test]
fn an_empty_list_is_lawful() {
    assert_eq!(refusal(&[]), None);
}

#[test]
fn each_size_byte() {
    for size in 0..=255 {
        let expected = (!SIZES.contains(&size)).then_some((32, 0));
        assert_eq!(refusal(&entry(b"Coach.Door", size)), expected, "{size}");
    }
}

#[test]
fn each_byte_of_a_name() {
    for byte in 0..=255_u8 {
        let is_head_byte = byte.is_ascii_alphanumeric() || b"._+".contains(&byte);
        let expected = (!is_head_byte).then_some((32, 0));
        for name in [vec![byte], vec![b'A', byte], vec![byte, b'A']] {
            assert_eq!(refusal(&entry(&name, 1)), expected, "{name:02X?}");
        }
    }
    assert_eq!(refusal(&entry(b"", 1)), Some((32, 0)));
}

#[test]
fn each_target_name_and_its_neighbours() {
    for name in TARGET_NAMES {
        assert_eq!(refusal(&entry(name.as_bytes(), 1)), Some((32, 0)), "{name}");
        let shorter = &name[..name.len() - 1];
        for other in [
            shorter.to_string(),
            format!("{name}x"),
            name.to_lowercase(),
            name.to_uppercase(),
        ] {
            assert_eq!(refusal(&entry(other.as_bytes(), 1)), None, "{other}");
        }
    }
}

/// A list that is cut at an entry's end is lawful, and anywhere else cut short.
#[test]
fn each_cut_of_a_list() {
    let names = [("Coach.Door", 1), ("A", 2), ("Coach.Lamp+State", 8)];
    let whole = list_bytes(&names);
    let mut ends = vec![0];
    for count in 1..=3 {
        ends.push(list_bytes(&names[..count]).len());
    }
    for length in 0..=whole.len() {
        let entry = ends.iter().filter(|end| **end <= length).count() - 1;
        let expected = (!ends.contains(&length)).then_some((32, entry));
        assert_eq!(refusal(&whole[..length]), expected, "{length} bytes");
    }
}

#[test]
fn a_list_has_no_limit_on_entries() {
    let names: Vec<String> = (0..70_000).map(|number| format!("E{number}")).collect();
    let mut bytes = Vec::new();
    for name in &names {
        bytes.extend(entry(name.as_bytes(), 1));
    }
    assert_eq!(refusal(&bytes), None);
    bytes.extend(entry(b"E0", 1));
    assert_eq!(refusal(&bytes), Some((32, 70_000)));
}

/// One file under lists that give its enum another size, or none.
#[test]
fn one_file_under_many_lists() {
    let name = "Coach.Door";
    let boxed = |bytes: u8| {
        write(&file(
            &[enum_of(name)],
            object(1, enum_of_size(bytes)),
            vec![],
        ))
    };
    let answer = |file: &[u8], enums: &[u8]| {
        let mut words = [GARBAGE; 8 * WORDS_PER_ROW];
        let reported = |Refusal { number, place }| (number, place);
        load(file, enums, &mut words).err().map(reported)
    };
    for held in 0..=9 {
        let file = boxed(held).bytes;
        let raw = file.len() - usize::from(held);
        for size in SIZES {
            let expected = match usize::from(held).cmp(&usize::from(size)) {
                std::cmp::Ordering::Less => Some((1, raw)),
                std::cmp::Ordering::Equal => None,
                std::cmp::Ordering::Greater => Some((20, raw + usize::from(size))),
            };
            assert_eq!(answer(&file, &list_bytes(&[(name, size)])), expected);
            if size == 4 {
                assert_eq!(answer(&file, NO_ENUMS), expected);
                assert_eq!(answer(&file, &list_bytes(&[("Coach.Lamp", 1)])), expected);
            }
        }
    }
    let elements = list(vec![enum_of_size(1); 4]);
    let doors = write(&file(&[list_of(name)], object(1, elements), vec![])).bytes;
    let first = doors.len() - 4;
    assert_eq!(answer(&doors, &list_bytes(&[(name, 1)])), None);
    assert_eq!(
        answer(&doors, &list_bytes(&[(name, 2)])),
        Some((1, first + 4))
    );
    assert_eq!(
        answer(&doors, &list_bytes(&[(name, 4)])),
        Some((1, first + 4))
    );
    assert_eq!(answer(&doors, &list_bytes(&[(name, 8)])), Some((1, first)));
    assert_eq!(answer(&doors, NO_ENUMS), Some((11, 58)));
    assert_eq!(
        answer(&doors, &list_bytes(&[("Coach.Doos", 1)])),
        Some((11, 58))
    );
}

/// "Before all else": 9, 1, 19 and 21 come after it, and lent buffers are left as after any refusal.
#[test]
fn a_bad_list_is_refused_before_all_else() {
    let bad = [entry(b"A", 1), entry(b"A", 2)].concat();
    let a = write(&file_a()).bytes;
    let refused = Refusal {
        number: 32,
        place: 1,
    };
    let files = [vec![0; 16_777_217], a[..9].to_vec(), vec![], a];
    for file in files {
        for count in [0, WORDS_PER_ROW - 1, WORDS_PER_ROW, 3 * WORDS_PER_ROW + 2] {
            for shape in Shape::BOTH {
                let mut words = vec![GARBAGE; count];
                let answer = load_in(shape, &file, &bad, &mut words);
                assert_eq!(answer, Err(refused));
                assert_eq!(words, vec![0; count]);
            }
            for length in [0, 12, 13, 40] {
                let mut words = vec![GARBAGE; count];
                let mut out = vec![0xEE; length];
                let answer = rewrite(&file, &bad, &mut words, &mut out);
                assert_eq!(answer, Err(refused));
                assert_eq!(words, vec![0; count]);
                assert_eq!(out, vec![0xEE; length]);
            }
        }
    }
}

#[test]
fn a_rewrite_takes_the_list() {
    let enums = list_bytes(&[("Coach.Door", 1)]);
    let mut file = file(
        &[list_of("Coach.Door")],
        object(1, list(vec![enum_of_size(1); 3])),
        vec![],
    );
    let shortest = write(&file).bytes;
    corpus::lawful::pad_file(4, &mut file);
    let padded = write(&file).bytes;
    let mut words = vec![GARBAGE; 4 * WORDS_PER_ROW];
    let mut out = vec![0xEE; padded.len()];
    let length = rewrite(&padded, &enums, &mut words, &mut out);
    assert_eq!(length, Ok(shortest.len()));
    assert_eq!(out[..shortest.len()], shortest);
    let mut loaded = vec![0; 4 * WORDS_PER_ROW];
    load(&padded, &enums, &mut loaded).expect("a lawful file");
    assert_eq!(words, loaded);
}
