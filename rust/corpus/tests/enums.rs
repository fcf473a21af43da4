//! Req 02: every size in every place, and every reason for 32, has a sample in the folder, with its list beside it.
//!
//! The tables here are typed from the documents; the files are found by what stands in them.

use corpus::folder::kept_files_with_enums;
use corpus::writer::Row;
use corpus::Sample;

/// A kept file with its rows or its refusal.
struct Kept {
    sample: Sample,
    rows: Vec<Row>,
    refusal: Option<(u32, usize)>,
}

fn kept() -> Vec<Kept> {
    let of = |sample: Sample| {
        let line = sample.rows.strip_prefix("refused ").unwrap_or_default();
        let reported = line.trim_end().split_once(" at ");
        let number = |digits: &str| digits.parse().expect("a number");
        Kept {
            refusal: reported.map(|(refusal, place)| (number(refusal) as u32, number(place))),
            rows: sample.rows.lines().filter_map(row).collect(),
            sample,
        }
    };
    kept_files_with_enums().into_iter().map(of).collect()
}

/// The seven words of a row line.
fn row(line: &str) -> Option<Row> {
    let numbers: Result<Vec<u32>, _> = line.split(' ').map(str::parse).collect();
    numbers.ok()?.get(1..)?.try_into().ok()
}

impl Kept {
    /// Whether a reader of this name, behind `Microsoft.Xna.Framework.Content.`, stands in the file.
    fn has_reader(&self, name: &str) -> bool {
        let name = format!("Microsoft.Xna.Framework.Content.{name}");
        holds(&self.sample.bytes, name.as_bytes())
    }

    /// Whether the list is this entry alone.
    fn lends(&self, name: &str, size: u8) -> bool {
        self.sample.enums == entry(name, size)
    }

    /// Whether a row is a raw enum of this length below a row of this kind.
    fn has_enum_below(&self, kind: u32, length: u32) -> bool {
        self.rows.iter().any(|row| {
            let owner = row[4].checked_sub(1).map(|owner| self.rows[owner as usize]);
            let below = owner.is_some_and(|owner| owner[0] == kind);
            below && row[0] == 15 && row[2] == length && row[5] == 0
        })
    }
}

fn holds(bytes: &[u8], part: &[u8]) -> bool {
    bytes.windows(part.len()).any(|it| it == part)
}

fn entry(name: &str, size: u8) -> Vec<u8> {
    [&[name.len() as u8], name.as_bytes(), &[size]].concat()
}

/// Fails with the name of what has no file.
fn demand(what: &str, files: &[Kept], shows: impl Fn(&Kept) -> bool) {
    assert!(files.iter().any(shows), "no kept file for {what}");
}

/// The readers of a listed name, and the kind that its values stand below.
const PLACES: [(&str, u32); 8] = [
    ("ArrayReader`1[[Coach.Door]]", 17),
    ("ListReader`1[[Coach.Door]]", 18),
    ("NullableReader`1[[Coach.Door]]", 16),
    ("DictionaryReader`2[[Coach.Door],[System.Byte]]", 19),
    ("DictionaryReader`2[[System.Byte],[Coach.Door]]", 19),
    (
        "ListReader`1[[System.Collections.Generic.List`1[[Coach.Door]]]]",
        18,
    ),
    ("ArrayReader`1[[System.Nullable`1[[Coach.Door]]]]", 16),
    (
        "ListReader`1[[System.Collections.Generic.Dictionary`2[[Coach.Door],[Coach.Door]]]]",
        19,
    ),
];

/// "Sizes 1, 2, 4 or 8", in each place of a type.
#[test]
fn each_size_in_each_place() {
    let files = kept();
    for size in [1, 2, 4, 8] {
        let lends = |file: &Kept| file.lends("Coach.Door", size);
        let length = u32::from(size);
        demand(&format!("an object of {size} bytes"), &files, |file| {
            let object = file.rows.first();
            let shows = |row: &Row| row[0] == 15 && row[2] == 1 + length;
            lends(file)
                && file.has_reader("EnumReader`1[[Coach.Door]]")
                && object.is_some_and(shows)
        });
        for (reader, kind) in PLACES {
            demand(&format!("{reader} of {size} bytes"), &files, |file| {
                lends(file) && file.has_reader(reader) && file.has_enum_below(kind, length)
            });
        }
        demand(&format!("{size} bytes, cut"), &files, |file| {
            lends(file) && file.refusal.is_some_and(|(number, _)| number == 1)
        });
    }
}

/// "EnumReader for a listed name takes that size, for others four."
#[test]
fn an_unlisted_name_takes_four_bytes() {
    demand("an unlisted name", &kept(), |file| {
        let listed = holds(&file.sample.enums, b"Coach.Door");
        let object = file.rows.first().is_some_and(|row| row[2] == 1 + 4);
        !listed && file.has_reader("EnumReader`1[[Coach.Door]]") && object
    });
}

/// Each bad size near a lawful one.
#[test]
fn each_bad_size() {
    for size in [0, 3, 5, 6, 7, 9, 16, 255] {
        demand(&format!("size {size}"), &kept(), |file| {
            file.lends("Coach.Door", size) && file.refusal == Some((32, 0))
        });
    }
}

/// 01's target names and Req 05's: what stands before the names, and the names.
const TARGET_NAMES: [(&str, &[&str]); 5] = [
    (
        "System.",
        &[
            "Byte", "SByte", "Int16", "UInt16", "Int32", "UInt32", "Int64", "UInt64", "Single",
            "Double", "Boolean", "Char", "String", "Object", "Nullable", "TimeSpan", "DateTime",
            "Decimal",
        ],
    ),
    ("System.Collections.Generic.", &["List", "Dictionary"]),
    (
        "Microsoft.Xna.Framework.",
        &[
            "Vector2",
            "Vector3",
            "Vector4",
            "Matrix",
            "Quaternion",
            "Color",
            "Point",
            "Rectangle",
        ],
    ),
    (
        "Microsoft.Xna.Framework.Graphics.",
        &[
            "Texture",
            "Texture2D",
            "SpriteFont",
            "IndexBuffer",
            "VertexDeclaration",
            "VertexBuffer",
            "Model",
        ],
    ),
    ("Coach.Console.", &["Page"]),
];

/// "One of 01's target names", as the second of two entries.
#[test]
fn each_target_name() {
    let files = kept();
    let mut count = 0;
    for (space, names) in TARGET_NAMES {
        for name in names {
            let name = format!("{space}{name}");
            demand(&name, &files, |file| {
                let ends = file.sample.enums.ends_with(&entry(&name, 1));
                ends && file.refusal == Some((32, 1))
            });
            count += 1;
        }
    }
    assert_eq!(count, corpus::enums::TARGET_NAMES.len());
}

/// The reasons of Req 02 and the files that show them, besides those above.
const REASONS: &[(&str, &[&str])] = &[
    (
        "an entry cut short",
        &[
            "bad-32-enums-length-alone",
            "bad-32-enums-length-0-alone",
            "bad-32-enums-cut-in-name",
            "bad-32-enums-cut-before-size",
            "bad-32-enums-second-length-alone",
            "bad-32-enums-second-cut-in-name",
            "bad-32-enums-second-cut-before-size",
            "bad-32-enums-third-cut-before-size",
        ],
    ),
    ("a bad size", &["bad-32-enums-second-size-3"]),
    (
        "a name that is no head",
        &[
            "bad-32-enums-empty-name",
            "bad-32-enums-second-empty-name",
            "bad-32-enums-name-with-slash",
            "bad-32-enums-name-with-colon",
            "bad-32-enums-name-with-at",
            "bad-32-enums-name-with-bracket",
            "bad-32-enums-name-with-caret",
            "bad-32-enums-name-with-backquote",
            "bad-32-enums-name-with-brace",
            "bad-32-enums-name-with-comma",
            "bad-32-enums-name-with-hyphen",
            "bad-32-enums-name-with-space",
            "bad-32-enums-name-with-byte-0",
            "bad-32-enums-name-with-byte-ff",
            "bad-32-enums-name-with-arguments",
            "bad-32-enums-name-with-tail",
            "ok-enums-named-every-head-byte",
        ],
    ),
    (
        "one listed earlier",
        &[
            "bad-32-enums-listed-earlier",
            "bad-32-enums-listed-earlier-with-another-size",
            "ok-enums-dictionary-of-2-and-8",
        ],
    ),
    (
        "the first such entry's number",
        &["bad-32-enums-two-faults", "bad-32-enums-size-before-cut"],
    ),
    (
        "before all else",
        &[
            "bad-32-enums-before-1-of-no-byte",
            "bad-32-enums-before-1-of-nine-bytes",
            "bad-32-enums-before-2",
            "bad-32-enums-before-7",
            "bad-32-enums-before-9",
            "bad-32-enums-before-20",
        ],
    ),
    (
        "a listed name is a known value type in arguments, and no other",
        &[
            "bad-11-enums-unlisted-argument",
            "bad-11-enums-argument-that-differs-in-one-byte",
            "bad-11-enums-argument-in-another-case",
            "bad-11-enums-start-of-a-listed-name",
            "bad-11-enums-more-than-a-listed-name",
            "bad-11-enums-nullable-of-an-unlisted-name",
            "bad-11-enums-nullable-of-an-unlisted-name-inside",
            "bad-11-enums-second-argument-unlisted",
            "bad-11-enums-listed-name-with-an-argument",
            "bad-11-enums-enum-of-a-listed-name-with-an-argument",
            "bad-11-enums-listed-name-as-a-reader",
            "bad-11-enums-nullable-of-a-nullable-enum",
            "ok-enums-tail-behind-a-listed-name",
        ],
    ),
    (
        "names no kind has",
        &[
            "ok-enums-named-plane",
            "ok-enums-named-effect",
            "ok-enums-named-enum",
            "ok-enums-named-array",
            "ok-enums-named-reader",
            "ok-enums-name-of-255-bytes",
        ],
    ),
    (
        "targets are equal when heads and arguments are",
        &[
            "bad-14-enums-lists-of-one-size",
            "bad-14-enums-lists-and-byte",
            "bad-14-enums-enum-where-text-is-declared",
        ],
    ),
    (
        "that size and no other",
        &[
            "bad-20-enums-object-of-1-and-a-byte",
            "bad-20-enums-object-of-2-and-a-byte",
            "bad-20-enums-object-of-4-and-a-byte",
            "bad-01-enums-list-of-2-cut",
        ],
    ),
];

#[test]
fn each_reason() {
    let files = kept();
    for (reason, names) in REASONS {
        for name in *names {
            let file = files.iter().find(|file| file.sample.name == *name);
            let file = file.unwrap_or_else(|| panic!("no file {name} for {reason}"));
            let start = match name.strip_prefix("bad-") {
                Some(rest) => format!("refused {} at ", rest[..2].trim_start_matches('0')),
                None => "rows ".to_string(),
            };
            assert!(file.sample.rows.starts_with(&start), "{name} for {reason}");
        }
    }
}
