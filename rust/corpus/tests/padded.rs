//! Req 06: each place where a seven-bit number may pad has a sample, and its padding is kept beside it.

use corpus::folder::{kept_files, shortest};
use corpus::{samples, Sample};

/// A place, the sample in which the number there is padded, where it stands, its bytes, and the padding.
type Place = (&'static str, &'static str, usize, &'static [u8], usize);

const PLACES: &[Place] = &[
    (
        "reader count 0",
        "ok-padded-reader-count-of-0",
        10,
        &[0x80, 0],
        1,
    ),
    (
        "reader count 1",
        "ok-padded-reader-count-of-1",
        10,
        &[0x81, 0x80, 0],
        2,
    ),
    (
        "a name's length",
        "ok-padded-name-length",
        11,
        &[0xAC, 0x80, 0x80, 0],
        3,
    ),
    (
        "another name's length",
        "ok-padded-second-name-length",
        77,
        &[0xAC, 0x80, 0x80, 0x80, 0],
        4,
    ),
    (
        "the largest name's length",
        "ok-padded-name-length-of-1024",
        11,
        &[0x80, 0x88, 0],
        1,
    ),
    (
        "shared count 0",
        "ok-padded-shared-count-of-0",
        11,
        &[0x80, 0x80, 0],
        2,
    ),
    (
        "shared count 1",
        "ok-padded-shared-count-of-1",
        40,
        &[0x81, 0x80, 0x80, 0],
        3,
    ),
    (
        "a null primary object",
        "ok-type-id-0-in-2-bytes",
        12,
        &[0x80, 0],
        1,
    ),
    (
        "the primary object's type id",
        "ok-type-id-1-in-5-bytes",
        59,
        &[0x81, 0x80, 0x80, 0x80, 0],
        4,
    ),
    (
        "an element's type id",
        "ok-padded-type-id-of-an-element",
        133,
        &[0x82, 0x80, 0],
        2,
    ),
    (
        "a null element",
        "ok-padded-null-as-an-element",
        132,
        &[0x80, 0],
        1,
    ),
    (
        "a null field",
        "ok-padded-null-as-a-field",
        42,
        &[0x80, 0x80, 0x80, 0x80, 0],
        4,
    ),
    (
        "a null shared object",
        "ok-padded-null-as-a-shared-object",
        61,
        &[0x80, 0],
        1,
    ),
    (
        "a shared object's type id",
        "ok-padded-type-id-of-a-shared-object",
        61,
        &[0x81, 0x80, 0x80, 0],
        3,
    ),
    (
        "a picture's resource id",
        "ok-padded-picture-reference",
        59,
        &[0x81, 0x80, 0],
        2,
    ),
    (
        "a page's resource id",
        "ok-padded-page-reference",
        60,
        &[0x81, 0x80, 0x80, 0x80, 0],
        4,
    ),
    (
        "a null reference",
        "ok-padded-null-reference",
        79,
        &[0x80, 0x80, 0x80, 0],
        3,
    ),
    (
        "a text count",
        "ok-padded-text-count",
        62,
        &[0x82, 0x80, 0x80, 0x80, 0],
        4,
    ),
    (
        "a text count of two bytes",
        "ok-padded-text-count-of-128",
        62,
        &[0x80, 0x81, 0],
        1,
    ),
    (
        "text count 0",
        "ok-padded-text-count-of-0",
        62,
        &[0x80, 0x80, 0],
        2,
    ),
];

/// In each of these files all else stands as in the file without padding, but for the header's length.
#[test]
fn each_place_where_a_number_may_pad() {
    let files = kept_files();
    for (place, name, at, number, padding) in PLACES {
        let file = named(&files, name);
        assert_eq!(file.padding, *padding, "{name} for {place}");
        let (before, rest) = file.bytes.split_at(*at);
        let behind = rest.strip_prefix(*number);
        let behind = behind.unwrap_or_else(|| panic!("{name} for {place}"));
        let mut short = number[..number.len() - padding].to_vec();
        *short.last_mut().expect("a byte") &= 0x7F;
        let mut without = [before, &short, behind].concat();
        let length = without.len() as u32;
        without[6..10].copy_from_slice(&length.to_le_bytes());
        assert_eq!(without, shortest(file, &files), "{name} for {place}");
    }
}

#[test]
fn the_total_is_the_sum_over_all_numbers() {
    let files = kept_files();
    let both = named(&files, "ok-padded-reader-count-and-text-count");
    assert_eq!(both.bytes[10..12], [0x81, 0]);
    assert_eq!(both.bytes[63..66], [0x82, 0x80, 0]);
    assert_eq!(both.padding, 1 + 2);
    // The reader count, eight name lengths, the shared count, thirteen type ids, two text counts and four references.
    for width in 2..=5 {
        let every = named(&files, &format!("ok-every-number-in-{width}-bytes"));
        assert_eq!(every.padding, 29 * (width - 1), "{}", every.name);
    }
}

/// Files that have padded numbers before their fault.
#[test]
fn refused_files_report_0() {
    let files = kept_files();
    for (name, at) in [
        ("bad-13-padded-numbers", 14),
        ("bad-17-padded-numbers", 62),
        ("bad-20-padded-numbers", 14),
    ] {
        let file = named(&files, name);
        assert_eq!(file.bytes[10] & 0x80, 0x80, "{name}");
        assert!(file.rows.ends_with(&format!(" at {at}\n")), "{name}");
        assert_eq!(file.padding, 0, "{name}");
    }
    for sample in samples()
        .iter()
        .filter(|it| it.rows.starts_with("refused "))
    {
        assert_eq!(sample.padding, 0, "{}", sample.name);
    }
}

/// The padding of an accepted file is its length less that of the file without padded numbers.
#[test]
fn the_padding_of_every_kept_file_is_what_its_shortest_form_lacks() {
    let files = kept_files();
    for file in files.iter().filter(|it| it.rows.starts_with("rows ")) {
        let short = shortest(file, &files);
        assert_eq!(
            file.padding,
            file.bytes.len() - short.len(),
            "{}",
            file.name
        );
    }
}

fn named<'f>(files: &'f [Sample], name: &str) -> &'f Sample {
    let found = files.iter().find(|file| file.name == name);
    found.unwrap_or_else(|| panic!("no file {name}"))
}
