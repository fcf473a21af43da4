//! Refusals of the proved library are explained by what stands at their place.

use corpus::folder::{kept_files, kept_files_with_enums};
use fuzz::enums::{self, EnumCase};
use std::collections::{BTreeMap, BTreeSet};
use xnb::{explain, Explanation, Loader, Refusal, Refused, Shape, WORDS_PER_ROW};

const GENERATED_FILES: u64 = 20_000;
const BUILDER_ROWS: usize = 1024;

/// The refusal of a file with its explanation; nothing for a file that is taken.
fn refused(file: &[u8], room: usize) -> Option<(Refusal, Option<Explanation<'_>>)> {
    refused_with(Loader::new(), file, room)
}

/// The same by a loader with a list of enum types.
fn refused_with<'f>(
    loader: Loader,
    file: &'f [u8],
    room: usize,
) -> Option<(Refusal, Option<Explanation<'f>>)> {
    let mut words = vec![0; WORDS_PER_ROW * room];
    let refused = loader.load_words(Shape::Rows, file, &mut words).err()?;
    Some((refused.refusal, loader.explain(file, refused, room)))
}

/// What is found in a sample.
fn found(name: &str) -> String {
    let file = kept_files().into_iter().find(|file| file.name == name);
    let file = file.unwrap_or_else(|| panic!("no sample {name}"));
    let (_, explanation) = refused(&file.bytes, BUILDER_ROWS).expect("a refused sample");
    let explanation = explanation.expect("an explanation");
    match explanation.reader {
        Some(reader) => {
            let end = reader.first + reader.bytes.len();
            assert_eq!(file.bytes[reader.first..end], *reader.bytes);
            let name = std::str::from_utf8(reader.bytes).expect("a plain name");
            format!("{} [{} {name}]", explanation.found, reader.number)
        }
        None => explanation.found,
    }
}

/// The words for a file that is too long, or has more rows than the table has room for.
fn largest(file: &[u8], room: usize, refusal: Refusal) -> Option<String> {
    match refusal {
        Refusal::TooLarge if file.len() > 16_777_216 => {
            Some("the file has more than 16777216 bytes".to_string())
        }
        Refusal::NoRowLeft => {
            let room = room.min(65_536);
            Some(format!(
                "the table has room for {room} rows, this value needs one more"
            ))
        }
        _ => None,
    }
}

#[test]
fn every_refusal_of_a_generated_file_is_explained() {
    let mut counts: BTreeMap<Refusal, u32> = BTreeMap::new();
    let generated = (0..GENERATED_FILES).map(|seed| {
        let case = fuzz::case(seed);
        (
            format!("seed {seed}"),
            case.bytes,
            case.words / WORDS_PER_ROW,
        )
    });
    let limits = fuzz::limits::cases().into_iter().map(|limit| {
        let room = limit.case.words / WORDS_PER_ROW;
        (limit.name, limit.case.bytes, room)
    });
    let kept = kept_files()
        .into_iter()
        .map(|file| (file.name, file.bytes, BUILDER_ROWS));
    let mut limits_named = BTreeSet::new();
    for (name, file, room) in generated.chain(limits).chain(kept) {
        if let Some((refusal, explanation)) = refused(&file, room) {
            let Some(Explanation { found, .. }) = explanation else {
                panic!("{name}: {refusal:?}");
            };
            if let Some(expected) = largest(&file, room, refusal) {
                assert_eq!(found, expected, "{name}");
                limits_named.insert(found);
            }
            *counts.entry(refusal).or_default() += 1;
        }
    }
    println!("{counts:?}");
    for room in [1024, 65_536] {
        let full = format!("the table has room for {room} rows, this value needs one more");
        assert!(limits_named.contains(&full), "{limits_named:?}");
    }
    assert!(limits_named.contains("the file has more than 16777216 bytes"));
    // 21, 23 and 24 are no answers of a load, and 32 is none with an empty list.
    assert_eq!(counts.len(), 26, "{counts:?}");
}

/// Listed enums are followed with their sizes, and entries that are refused are reported.
#[test]
fn every_refusal_of_a_file_with_enums_is_explained() {
    let mut counts: BTreeMap<Refusal, u32> = BTreeMap::new();
    let generated = (0..GENERATED_FILES).map(|seed| (format!("seed {seed}"), enums::case(seed)));
    let limits = enums::limits()
        .into_iter()
        .map(|limit| (limit.name, limit.case));
    let cases = generated
        .chain(limits)
        .map(|(name, EnumCase { case, enums })| {
            (name, case.bytes, enums, case.words / WORDS_PER_ROW)
        });
    let kept = kept_files_with_enums()
        .into_iter()
        .map(|file| (file.name, file.bytes, file.enums, BUILDER_ROWS));
    for (name, file, enums, room) in cases.chain(kept) {
        let loader = Loader::new().with_enum_bytes(&enums);
        if let Some((refusal, explanation)) = refused_with(loader, &file, room) {
            assert!(explanation.is_some(), "{name}: {refusal:?}");
            *counts.entry(refusal).or_default() += 1;
        }
    }
    println!("{counts:?}");
    assert!(counts[&Refusal::EnumEntry] > 2_000, "{counts:?}");
    assert!(counts[&Refusal::NotDeclared] > 100, "{counts:?}");
}

#[test]
fn what_is_found_with_enums_is_reported() {
    let reported = [
        (
            "bad-01-enums-list-of-2-cut",
            "a value of kind Enum takes 2 bytes, 1 left",
        ),
        (
            "bad-01-enums-object-of-8-cut",
            "a value of kind Enum takes 8 bytes, 7 left",
        ),
        (
            "bad-32-enums-named-system-byte",
            "entry 1 of the enum list, System.Byte: a type of this name is known already",
        ),
    ];
    let files = kept_files_with_enums();
    for (name, expected) in reported {
        let file = files.iter().find(|file| file.name == name);
        let file = file.unwrap_or_else(|| panic!("no sample {name}"));
        let loader = Loader::new().with_enum_bytes(&file.enums);
        let answer = refused_with(loader, &file.bytes, BUILDER_ROWS);
        let (_, explanation) = answer.expect("a refused sample");
        assert_eq!(explanation.expect("an explanation").found, expected);
    }
}

/// Each number, and each of its rules, in the words of a sample.
#[test]
fn what_is_found_is_reported() {
    let reported = [
        (
            "bad-01-nine-bytes",
            "the header takes 10 bytes, the file has 9",
        ),
        (
            "bad-01-no-primary",
            "the type id is due where the file ends",
        ),
        (
            "bad-01-type-id-cut-after-four-bytes",
            "the type id goes on behind the file's end",
        ),
        (
            "bad-01-name-cut",
            "the name of reader 1 takes 44 bytes, 43 left",
        ),
        (
            "bad-01-no-version",
            "the version of reader 1 takes 4 bytes, 0 left",
        ),
        ("bad-01-text-cut", "the text takes 4 bytes, 3 left"),
        (
            "bad-01-matrix-cut",
            "a value of kind Matrix takes 64 bytes, 63 left",
        ),
        (
            "bad-01-char-cut-and-wrong",
            "a Char that begins with E2 takes 3 bytes, 2 left",
        ),
        (
            "bad-01-level-data-cut",
            "the data of an image level takes 16 bytes, 15 left",
        ),
        (
            "bad-01-texture-height-cut",
            "the height of a Texture2D takes 4 bytes, 3 left",
        ),
        (
            "bad-02-first-byte",
            "the file begins with 78 4E 42, XNB is 58 4E 42",
        ),
        (
            "bad-03-platform",
            "the platform is 69, w, m and x are 77, 6D and 78",
        ),
        ("bad-04-version", "the version is 4; only 5 is taken"),
        ("bad-05-compressed", "the flags are 81, bit 80 is set"),
        ("bad-06-flags", "the flags are 02; only 00 and 01 are taken"),
        (
            "bad-07-length-too-small",
            "the header says 12 bytes, the file has 13",
        ),
        (
            "bad-08-shared-count",
            "the shared count has the fifth byte 8F, above 0F",
        ),
        (
            "bad-08-text-count",
            "the count of a text has the fifth byte 10, above 0F",
        ),
        ("bad-09-65-readers", "the reader count is 65, the limit 64"),
        (
            "bad-09-257-shared-objects",
            "the shared count is 257, the limit 256",
        ),
        (
            "bad-09-empty-name",
            "the length of the name of reader 1 is 0, a name has at least 1 byte",
        ),
        (
            "bad-09-name-of-1025-bytes",
            "the length of the name of reader 1 is 1025, the limit 1024",
        ),
        (
            "bad-12-version-1",
            "the version of reader 1 is 1; only 0 is taken \
             [1 Microsoft.Xna.Framework.Content.StringReader]",
        ),
        (
            "bad-13-past-the-list",
            "the type id is 2, the reader list has 1",
        ),
        (
            "bad-13-texture-reader",
            "reader 2 is for Microsoft.Xna.Framework.Graphics.Texture and never invoked \
             [2 Microsoft.Xna.Framework.Content.TextureReader]",
        ),
        (
            "bad-14-array-where-list-is-declared",
            "declared System.Collections.Generic.List`1[[System.Int32]], \
             found System.Int32[] by reader 2 \
             [2 Microsoft.Xna.Framework.Content.ArrayReader`1[[System.Int32]]]",
        ),
        (
            "bad-14-list-of-other-numbers",
            "declared System.Collections.Generic.List`1[[System.Int32]], \
             found System.Collections.Generic.List`1[[System.UInt32]] by reader 2 \
             [2 Microsoft.Xna.Framework.Content.ListReader`1[[System.UInt32]]]",
        ),
        (
            "bad-15-boolean-2",
            "Boolean: the byte is 2; only 0 and 1 are taken",
        ),
        (
            "bad-15-nullable-flag-2",
            "Nullable: the byte is 2; only 0 and 1 are taken",
        ),
        (
            "bad-15-char-of-four-bytes",
            "Char: the first byte is F0, no character of 1 to 3 bytes begins so",
        ),
        (
            "bad-15-char-surrogate",
            "Char: the bytes are ED A0 80, no character in UTF-8",
        ),
        (
            "bad-15-text-past-10ffff",
            "String: the text is not UTF-8 from byte 63 on, which is F4",
        ),
        (
            "bad-15-datetime-ticks",
            "DateTime: the ticks are 3155378976000000000, the limit 3155378975999999999",
        ),
        (
            "bad-15-datetime-zone-3",
            "DateTime: the high two bits are 3, the limit 2",
        ),
        (
            "bad-15-decimal-bit-30",
            "Decimal: the fourth word is 40000000, bits 0 to 15 and 24 to 30 must be zero",
        ),
        (
            "bad-15-decimal-scale-29",
            "Decimal: the scale is 29, the limit 28",
        ),
        (
            "bad-15-format-19",
            "Texture2D: the format is 19; only 0 to 18 are taken",
        ),
        (
            "bad-15-width-4097",
            "Texture2D: the width is 4097; only 1 to 4096 are taken",
        ),
        (
            "bad-15-height-0",
            "Texture2D: the height is 0; only 1 to 4096 are taken",
        ),
        (
            "bad-15-four-levels-of-5-by-3",
            "Texture2D: the level count is 4; only 1 to 3 are taken",
        ),
        (
            "bad-15-level-size-before-its-data",
            "ImageLevel: the size is 17, 2 by 2 in format 0 takes 16",
        ),
        (
            "bad-16-above-the-count",
            "the resource id is 2, the shared count 1",
        ),
        (
            "bad-17-page-as-picture",
            "declared Microsoft.Xna.Framework.Graphics.Texture2D, \
             found Coach.Console.Page as resource 1 at byte 162",
        ),
        (
            "bad-17-text-as-page-in-shared-object",
            "declared Coach.Console.Page, found System.String as resource 3 at byte 207",
        ),
        ("bad-18-level", "the value's depth is 33, the limit 32"),
        (
            "bad-19-1025-rows",
            "the table has room for 1024 rows, this value needs one more",
        ),
        (
            "bad-20-one-byte",
            "the last object ends there, left over: 1 byte",
        ),
        (
            "bad-22-null-glyphs",
            "an object of the font is null: its glyphs",
        ),
        (
            "bad-22-more-cropping",
            "the counts of the lists differ: glyphs 2, cropping 3, characters 2, kerning 2",
        ),
        (
            "bad-22-falling-characters",
            "the characters do not rise: U+0061 comes behind U+20AC",
        ),
    ];
    for (name, expected) in reported {
        assert_eq!(found(name), expected, "{name}");
    }
}

/// The refusals of 01, and those of 02 that a file may meet.
fn refusals() -> impl Iterator<Item = Refusal> {
    (1..=24).chain(33..=38).filter_map(Refusal::of_number)
}

/// A refusal that the file does not show has no words.
#[test]
fn nothing_is_reported_of_another_refusal() {
    let files = kept_files();
    let mut count = 0;
    for file in files.iter().filter(|file| file.name.starts_with("ok-")) {
        for refusal in refusals() {
            for place in (0..file.bytes.len() as u32 + 2).step_by(7) {
                let explanation = explain(&file.bytes, Refused { refusal, place }, BUILDER_ROWS);
                assert!(explanation.is_none(), "{} {refusal:?}", file.name);
                count += 1;
            }
        }
    }
    assert!(count > 10_000, "{count}");
}

/// Every lawful file is followed to its end: room for one row less is reported at its last value.
#[test]
fn a_missing_row_is_reported() {
    for file in kept_files() {
        let Ok(loaded) = Shape::Rows.load(&file.bytes, &mut vec![0; WORDS_PER_ROW * BUILDER_ROWS])
        else {
            continue;
        };
        let room = loaded.rows - 1;
        let (refusal, explanation) = refused(&file.bytes, room).expect("a row is missing");
        assert_eq!(refusal, Refusal::NoRowLeft);
        let words = format!("the table has room for {room} rows, this value needs one more");
        assert_eq!(explanation.expect("an explanation").found, words);
    }
}

/// Whatever the bytes and the refusal, following them ends.
#[test]
fn any_refusal_of_any_bytes_is_followed() {
    let mut random = fuzz::random::Random::new(7);
    for seed in 0..2_000 {
        let file = fuzz::case(seed).bytes;
        for refusal in Refusal::all() {
            let place = random.below(file.len() + 2) as u32;
            let room = random.below(40);
            if let Some(explanation) = explain(&file, Refused { refusal, place }, room) {
                assert!(!explanation.found.is_empty());
            }
        }
    }
}
