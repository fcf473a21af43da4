//! Every entry of the tables of 000 and 01 and every limit of 01 has a sample; `meshes.rs` has Req 05's.
//!
//! The tables here are typed from the documents; the files are found by what stands in them.
//! The limit of 16,777,216 bytes has no file; `second/tests/examples.rs` and `fuzz::limits` make those.

use corpus::folder::kept_files;
use corpus::names::all;
use corpus::writer::Row;
use corpus::Sample;
use std::ops::RangeInclusive;

/// A kept file, read as far as its first object.
struct Kept {
    bytes: Vec<u8>,
    readers: Vec<String>,
    /// Where the primary object starts.
    primary: usize,
    rows: Vec<Row>,
    /// The number and place of its refusal, or nothing.
    refusal: Option<(u32, usize)>,
}

/// The files whose reader list can be read, with one byte for each count.
fn kept() -> Vec<Kept> {
    kept_files().into_iter().filter_map(read).collect()
}

fn read(sample: Sample) -> Option<Kept> {
    let bytes = sample.bytes;
    let mut at = 11;
    let mut readers = Vec::new();
    for _ in 0..*bytes.get(10)? {
        let (length, behind) = name_length(&bytes, at)?;
        let name = bytes.get(behind..behind + length)?;
        readers.push(String::from_utf8_lossy(name).into_owned());
        at = behind + length + 4;
    }
    let rows = sample.rows.lines().filter_map(row).collect();
    Some(Kept {
        bytes,
        readers,
        primary: at + 1,
        rows,
        refusal: refusal(&sample.rows),
    })
}

/// A name's length in one or two bytes, and where the name starts.
fn name_length(bytes: &[u8], at: usize) -> Option<(usize, usize)> {
    let low = *bytes.get(at)? as usize;
    if low < 0x80 {
        return Some((low, at + 1));
    }
    let high = *bytes.get(at + 1)? as usize;
    Some((high * 128 + low - 128, at + 2))
}

/// The seven words of a row line.
fn row(line: &str) -> Option<Row> {
    let numbers: Result<Vec<u32>, _> = line.split(' ').map(str::parse).collect();
    numbers.ok()?.get(1..)?.try_into().ok()
}

fn refusal(rows: &str) -> Option<(u32, usize)> {
    let (number, place) = rows
        .strip_prefix("refused ")?
        .trim_end()
        .split_once(" at ")?;
    Some((number.parse().ok()?, place.parse().ok()?))
}

impl Kept {
    fn number_at(&self, place: usize) -> Option<u32> {
        let bytes = self.bytes.get(place..place + 4)?;
        Some(u32::from_le_bytes(bytes.try_into().ok()?))
    }

    /// Whether the primary object is by the first reader, and that has this name.
    fn is_by(&self, reader: &str) -> bool {
        let first = self.readers.first().is_some_and(|it| it == reader);
        first && self.bytes.get(self.primary) == Some(&1)
    }

    /// The format, width and height of a texture that is the primary object.
    fn texture(&self) -> Option<[u32; 3]> {
        if !self.is_by("Microsoft.Xna.Framework.Content.Texture2DReader") {
            return None;
        }
        let field = |number: usize| self.number_at(self.primary + 1 + 4 * number);
        Some([field(0)?, field(1)?, field(2)?])
    }
}

/// Fails with the name of what has no file.
fn demand(what: &str, files: &[Kept], shows: impl Fn(&Kept) -> bool) {
    assert!(files.iter().any(shows), "no kept file for {what}");
}

#[test]
fn each_platform_and_flag() {
    let files = kept();
    for platform in [b'w', b'm', b'x'] {
        for flag in [0, 1] {
            let what = format!("platform {} with flag {flag}", platform as char);
            demand(&what, &files, |file| {
                file.refusal.is_none() && file.bytes[3] == platform && file.bytes[5] == flag
            });
        }
    }
}

/// Each reader of 000 and 01 that is invoked: its name, its kind and its size where that is fixed.
const READERS: [(&str, u32, u32); 36] = [
    ("Microsoft.Xna.Framework.Content.ByteReader", 1, 1),
    ("Microsoft.Xna.Framework.Content.SByteReader", 2, 1),
    ("Microsoft.Xna.Framework.Content.Int16Reader", 3, 2),
    ("Microsoft.Xna.Framework.Content.UInt16Reader", 4, 2),
    ("Microsoft.Xna.Framework.Content.Int32Reader", 5, 4),
    ("Microsoft.Xna.Framework.Content.UInt32Reader", 6, 4),
    ("Microsoft.Xna.Framework.Content.Int64Reader", 7, 8),
    ("Microsoft.Xna.Framework.Content.UInt64Reader", 8, 8),
    ("Microsoft.Xna.Framework.Content.SingleReader", 9, 4),
    ("Microsoft.Xna.Framework.Content.DoubleReader", 10, 8),
    ("Microsoft.Xna.Framework.Content.BooleanReader", 11, 1),
    ("Microsoft.Xna.Framework.Content.CharReader", 12, ANY),
    ("Microsoft.Xna.Framework.Content.StringReader", 13, ANY),
    ("Microsoft.Xna.Framework.Content.EnumReader`1[[Coach.Door+State_2]]", 15, 4),
    ("Microsoft.Xna.Framework.Content.NullableReader`1[[System.Int32]]", 16, ANY),
    ("Microsoft.Xna.Framework.Content.ArrayReader`1[[System.Int32]]", 17, ANY),
    ("Microsoft.Xna.Framework.Content.ListReader`1[[Microsoft.Xna.Framework.Rectangle]]", 18, ANY),
    ("Microsoft.Xna.Framework.Content.DictionaryReader`2[[System.Int32],[Microsoft.Xna.Framework.Rectangle]]", 19, ANY),
    ("Microsoft.Xna.Framework.Content.TimeSpanReader", 20, 8),
    ("Microsoft.Xna.Framework.Content.DateTimeReader", 21, 8),
    ("Microsoft.Xna.Framework.Content.DecimalReader", 22, 16),
    ("Microsoft.Xna.Framework.Content.Vector2Reader", 23, 8),
    ("Microsoft.Xna.Framework.Content.Vector3Reader", 24, 12),
    ("Microsoft.Xna.Framework.Content.Vector4Reader", 25, 16),
    ("Microsoft.Xna.Framework.Content.MatrixReader", 26, 64),
    ("Microsoft.Xna.Framework.Content.QuaternionReader", 27, 16),
    ("Microsoft.Xna.Framework.Content.ColorReader", 28, 4),
    ("Microsoft.Xna.Framework.Content.PointReader", 29, 8),
    ("Microsoft.Xna.Framework.Content.RectangleReader", 30, 16),
    ("Microsoft.Xna.Framework.Content.Texture2DReader", 32, ANY),
    ("Microsoft.Xna.Framework.Content.SpriteFontReader", 33, ANY),
    ("Coach.Console.PageReader", 34, ANY),
    ("Microsoft.Xna.Framework.Content.IndexBufferReader", 37, ANY),
    ("Microsoft.Xna.Framework.Content.VertexDeclarationReader", 38, ANY),
    ("Microsoft.Xna.Framework.Content.VertexBufferReader", 39, ANY),
    ("Microsoft.Xna.Framework.Content.ModelReader", 40, ANY),
];

/// The size of a kind that has none of its own.
const ANY: u32 = 0;

#[test]
fn each_reader_with_the_kind_and_size_of_its_objects() {
    let files = kept();
    for (reader, kind, size) in READERS {
        demand(reader, &files, |file| {
            let object = file.rows.first();
            let shows = |row: &Row| row[0] == kind && (size == ANY || row[2] == 1 + size);
            file.is_by(reader) && object.is_some_and(shows)
        });
        if size != ANY {
            demand(&format!("{reader} cut"), &files, |file| {
                let all_but_last = file.bytes.len() == file.primary + size as usize;
                let at_value = file.refusal == Some((1, file.primary + 1));
                file.is_by(reader) && all_but_last && at_value
            });
        }
    }
}

/// The readers that are listed but never invoked.
const NEVER_INVOKED: [&str; 2] = [
    "Microsoft.Xna.Framework.Content.ObjectReader",
    "Microsoft.Xna.Framework.Content.TextureReader",
];

#[test]
fn each_reader_that_is_never_invoked() {
    let files = kept();
    for reader in NEVER_INVOKED {
        let what = format!("{reader} in a list");
        demand(&what, &files, |file| {
            file.refusal.is_none() && file.readers.iter().any(|it| it == reader)
        });
        let what = format!("an object by {reader}");
        demand(&what, &files, |file| {
            file.is_by(reader) && file.refusal == Some((13, file.primary))
        });
    }
}

/// Each target name that can be an argument: the argument, the kind and the size of its elements.
const ARGUMENTS: [(&str, u32, u32); 36] = [
    ("System.Byte", 1, 1),
    ("System.SByte", 2, 1),
    ("System.Int16", 3, 2),
    ("System.UInt16", 4, 2),
    ("System.Int32", 5, 4),
    ("System.UInt32", 6, 4),
    ("System.Int64", 7, 8),
    ("System.UInt64", 8, 8),
    ("System.Single", 9, 4),
    ("System.Double", 10, 8),
    ("System.Boolean", 11, 1),
    ("System.Char", 12, ANY),
    ("System.String", 13, ANY),
    ("System.Object", 1, ANY),
    ("System.Nullable`1[[System.Byte]]", 16, ANY),
    ("System.Collections.Generic.List`1[[System.Byte]]", 18, ANY),
    (
        "System.Collections.Generic.Dictionary`2[[System.Byte],[System.Char]]",
        19,
        ANY,
    ),
    ("System.TimeSpan", 20, 8),
    ("System.DateTime", 21, 8),
    ("System.Decimal", 22, 16),
    ("Microsoft.Xna.Framework.Vector2", 23, 8),
    ("Microsoft.Xna.Framework.Vector3", 24, 12),
    ("Microsoft.Xna.Framework.Vector4", 25, 16),
    ("Microsoft.Xna.Framework.Matrix", 26, 64),
    ("Microsoft.Xna.Framework.Quaternion", 27, 16),
    ("Microsoft.Xna.Framework.Color", 28, 4),
    ("Microsoft.Xna.Framework.Point", 29, 8),
    ("Microsoft.Xna.Framework.Rectangle", 30, 16),
    ("Microsoft.Xna.Framework.Graphics.Texture", 32, ANY),
    ("Microsoft.Xna.Framework.Graphics.Texture2D", 32, ANY),
    ("Microsoft.Xna.Framework.Graphics.SpriteFont", 33, ANY),
    ("Coach.Console.Page", 34, ANY),
    ("Microsoft.Xna.Framework.Graphics.IndexBuffer", 37, ANY),
    (
        "Microsoft.Xna.Framework.Graphics.VertexDeclaration",
        38,
        ANY,
    ),
    ("Microsoft.Xna.Framework.Graphics.VertexBuffer", 39, ANY),
    ("Microsoft.Xna.Framework.Graphics.Model", 40, ANY),
];

/// Whether a row is an element of the first row's list, raw if it is a value and else an object.
fn is_element(row: &Row, kind: u32, size: u32, value: bool) -> bool {
    let raw = row[5] == 0;
    row[4] == 1 && row[0] == kind && (size == ANY || row[2] == size) && raw == value
}

/// "Value types are kinds 1 to 12, 15, 16 and 20 to 30."
fn is_value_type(argument: &str, kind: u32) -> bool {
    let values: [RangeInclusive<u32>; 4] = [1..=12, 15..=15, 16..=16, 20..=30];
    argument != "System.Object" && values.iter().any(|kinds| kinds.contains(&kind))
}

#[test]
fn each_target_name_as_an_argument_with_the_kind_and_size_of_its_elements() {
    let files = kept();
    for (argument, kind, size) in ARGUMENTS {
        let reader = format!("Microsoft.Xna.Framework.Content.ListReader`1[[{argument}]]");
        let value = is_value_type(argument, kind);
        demand(&reader, &files, |file| {
            let mut rows = file.rows.iter();
            file.is_by(&reader) && rows.any(|row| is_element(row, kind, size, value))
        });
    }
}

/// Each surface format of 000, and the sizes of its levels of 5 by 3, 2 by 1 and 1 by 1.
const FORMATS: [(u32, [u32; 3]); 19] = [
    (0, [60, 8, 4]),
    (1, [30, 4, 2]),
    (2, [30, 4, 2]),
    (3, [30, 4, 2]),
    (4, [16, 8, 8]),
    (5, [32, 16, 16]),
    (6, [32, 16, 16]),
    (7, [30, 4, 2]),
    (8, [60, 8, 4]),
    (9, [60, 8, 4]),
    (10, [60, 8, 4]),
    (11, [120, 16, 8]),
    (12, [15, 2, 1]),
    (13, [60, 8, 4]),
    (14, [120, 16, 8]),
    (15, [240, 32, 16]),
    (16, [30, 4, 2]),
    (17, [60, 8, 4]),
    (18, [120, 16, 8]),
];

#[test]
fn each_surface_format_with_the_sizes_of_its_levels() {
    let files = kept();
    for (format, sizes) in FORMATS {
        let is_of = |file: &Kept| file.texture() == Some([format, 5, 3]);
        demand(&format!("format {format}"), &files, |file| {
            let levels: Vec<u32> = file.rows.iter().skip(1).map(|row| row[2]).collect();
            is_of(file) && levels == sizes.map(|size| 4 + size)
        });
        for wrong in [sizes[0] - 1, sizes[0] + 1] {
            let what = format!("format {format} with {wrong} bytes");
            demand(&what, &files, |file| {
                let level = file.primary + 17;
                let at_level = file.refusal == Some((15, level));
                is_of(file) && at_level && file.number_at(level) == Some(wrong)
            });
        }
    }
}

/// Each block format, and its bytes for 1, 1, 2, 4, 6, 6, 1 and 3 blocks.
const BLOCKS: [(u32, [u32; 8]); 3] = [
    (4, [8, 8, 16, 32, 48, 48, 8, 24]),
    (5, [16, 16, 32, 64, 96, 96, 16, 48]),
    (6, [16, 16, 32, 64, 96, 96, 16, 48]),
];
const BLOCK_SIDES: [[u32; 2]; 8] = [
    [1, 1],
    [4, 4],
    [3, 5],
    [5, 5],
    [8, 9],
    [9, 8],
    [4, 1],
    [1, 9],
];

#[test]
fn each_block_format_at_sides_that_are_no_multiple_of_four() {
    let files = kept();
    for (format, sizes) in BLOCKS {
        for ([width, height], size) in BLOCK_SIDES.into_iter().zip(sizes) {
            let what = format!("format {format} of {width} by {height}");
            demand(&what, &files, |file| {
                let is_of = file.texture() == Some([format, width, height]);
                is_of && file.rows.get(1).is_some_and(|row| row[2] == 4 + size)
            });
        }
    }
}

/// Each side, and how many levels a texture of that width and of height 1 has at most.
const CHAINS: [(u32, u32); 24] = [
    (1, 1),
    (2, 2),
    (3, 2),
    (4, 3),
    (7, 3),
    (8, 4),
    (15, 4),
    (16, 5),
    (31, 5),
    (32, 6),
    (63, 6),
    (64, 7),
    (127, 7),
    (128, 8),
    (255, 8),
    (256, 9),
    (511, 9),
    (512, 10),
    (1023, 10),
    (1024, 11),
    (2047, 11),
    (2048, 12),
    (4095, 12),
    (4096, 13),
];

#[test]
fn each_number_of_levels_at_its_most_and_past_it() {
    let files = kept();
    for (width, most) in CHAINS {
        let is_of = |file: &Kept| file.texture().is_some_and(|it| it[1..] == [width, 1]);
        let levels = |file: &Kept| file.number_at(file.primary + 13);
        demand(&format!("{most} levels of {width}"), &files, |file| {
            is_of(file) && file.refusal.is_none() && levels(file) == Some(most)
        });
        demand(&format!("{} levels of {width}", most + 1), &files, |file| {
            let refused = file.refusal == Some((15, file.primary + 13));
            is_of(file) && refused && levels(file) == Some(most + 1)
        });
    }
}

/// Every name of a reader and of an argument, in the table of names: with its own number of arguments, and with another.
#[test]
fn each_name_takes_its_own_number_of_arguments() {
    let names = all();
    let number_of = |name: &str| {
        let found = names.iter().find(|it| it.name == name);
        found
            .unwrap_or_else(|| panic!("no entry for {name}"))
            .number
    };
    let invoked = READERS.iter().map(|(name, _, _)| *name);
    for name in invoked.chain(NEVER_INVOKED) {
        let head = name.split('`').next().expect("a head");
        if head == name {
            assert_eq!(number_of(head), 0);
            assert_eq!(number_of(&format!("{head}`1[[System.Byte]]")), 11);
        } else {
            assert_eq!(number_of(head), 11);
            let digit = if name.contains("`1") { 2 } else { 1 };
            let wrong = ["[[System.Byte]]", "[[System.Byte],[System.Byte]]"][digit - 1];
            assert_eq!(number_of(&format!("{head}`{digit}{wrong}")), 11);
        }
    }
    for (argument, kind, _) in ARGUMENTS {
        let head = argument.split('`').next().expect("a head");
        let list = |inner: &str| format!("Microsoft.Xna.Framework.Content.ListReader`1[[{inner}]]");
        if head == argument {
            assert_eq!(number_of(&list(&format!("{head}`1[[System.Byte]]"))), 11);
        } else {
            assert_eq!(number_of(&list(head)), 11);
        }
        let enumeration = format!("Microsoft.Xna.Framework.Content.EnumReader`1[[{head}]]");
        assert_eq!(number_of(&enumeration), 11);
        let nullable = format!("Microsoft.Xna.Framework.Content.NullableReader`1[[{argument}]]");
        let lawful = is_value_type(argument, kind) && kind != 16;
        assert_eq!(number_of(&nullable), if lawful { 0 } else { 11 });
    }
}

/// The other limits and places of 01, with the files that show them.
const LIMITS: &[(&str, &[&str])] = &[
    (
        "`XNB`, 2 at 0",
        &[
            "bad-02-first-byte-w",
            "bad-02-first-byte-y",
            "bad-02-second-byte-m",
            "bad-02-second-byte-o",
            "bad-02-third-byte-a",
            "bad-02-third-byte-c",
        ],
    ),
    (
        "`w`, `m` or `x`, 3 at 3",
        &[
            "bad-03-platform-6c",
            "bad-03-platform-6e",
            "bad-03-platform-76",
            "bad-03-platform-79",
        ],
    ),
    (
        "version 5, 4 at 4",
        &["bad-04-version-04", "bad-04-version-06"],
    ),
    (
        "bit 80 hex clear, 5 at 5",
        &["bad-05-flags-80", "bad-05-flags-81"],
    ),
    (
        "flags 00 or 01, 6 at 5",
        &["bad-06-flags-02", "bad-06-flags-7f"],
    ),
    (
        "the file's length, 7 at 6",
        &[
            "bad-07-length-0c",
            "bad-07-length-0e",
            "bad-07-length-010d",
            "bad-07-length-01000d",
            "bad-07-length-0100000d",
        ],
    ),
    (
        "ten header bytes, 1 at 0",
        &[
            "bad-01-nine-wrong-bytes",
            "bad-02-ten-bytes",
            "bad-01-ten-bytes",
        ],
    ),
    (
        "the header in table order: every pair of its refusals",
        &[
            "bad-02-before-3",
            "bad-02-before-4",
            "bad-02-before-5",
            "bad-02-before-6",
            "bad-02-before-7",
            "bad-03-before-4",
            "bad-03-before-5",
            "bad-03-before-6",
            "bad-03-before-7",
            "bad-04-before-5",
            "bad-04-before-6",
            "bad-04-before-7",
            "bad-05-before-6",
            "bad-05-before-7",
            "bad-06-before-7",
        ],
    ),
    (
        "a reader's name in full before its version",
        &[
            "bad-11-version-missing",
            "bad-11-version-cut",
            "bad-11-version-wrong",
        ],
    ),
    (
        "type id: 13, then 14",
        &[
            "bad-13-object-reader-in-a-list-of-text",
            "bad-13-texture-reader-in-a-list-of-text",
            "bad-14-number-where-text-is-declared",
        ],
    ),
    (
        "at a value's start: 18, 19, then its bytes",
        &[
            "bad-18-before-19",
            "bad-18-before-19-and-1",
            "bad-19-thirty-two-deep",
        ],
    ),
    (
        "20 after the last object, 17 last, in row order",
        &[
            "bad-20-before-17",
            "bad-13-before-17",
            "bad-17-first-of-two",
        ],
    ),
    (
        "an effect is null or names a null resource",
        &[
            "ok-part-references-in-order",
            "bad-17-effect-of-a-vertex-buffer",
            "bad-17-effect-of-int32",
            "bad-17-index-buffer-before-effect",
            "bad-16-effect-4-of-3",
        ],
    ),
    ("64 readers", &["ok-64-readers", "bad-09-65-readers"]),
    (
        "256 shared objects",
        &["ok-256-shared-objects", "bad-09-257-shared-objects"],
    ),
    (
        "names of 1 to 1,024 bytes",
        &[
            "bad-09-name-length-0",
            "bad-11-name-length-1",
            "ok-name-of-1024-bytes",
            "bad-09-name-of-1025-bytes",
        ],
    ),
    (
        "a tail's bytes 20 to 7E hex without brackets",
        &[
            "ok-tail-of-no-byte",
            "ok-tail-20-7e",
            "ok-tail-5a-5c-5e",
            "bad-37-tail-1f",
            "bad-37-tail-5b",
            "bad-37-tail-5d",
            "bad-37-tail-7f",
        ],
    ),
    (
        "a head's letters, digits, `.`, `_`, `+`",
        &[
            "ok-head-of-0-9-a-z",
            "bad-33-head-of-no-byte",
            "bad-34-head-2f",
            "bad-34-head-3a",
            "bad-34-head-40",
            "bad-34-head-5e",
            "bad-35-head-60",
            "bad-34-head-7b",
        ],
    ),
    (
        "the digit 1 or 2",
        &[
            "bad-35-digit-0",
            "bad-35-digit-3",
            "bad-36-digit-1-with-2-arguments",
            "bad-36-digit-2-with-1-argument",
        ],
    ),
    (
        "names of 8 levels",
        &["ok-name-of-8-levels", "bad-38-nine-levels"],
    ),
    (
        "33: a head is empty where no head byte stands at its start, the name's end too",
        &[
            "bad-33-name-starts-with-a-backquote",
            "bad-33-argument-of-no-byte",
            "bad-33-second-argument-starts-with-a-comma",
            "bad-33-ends-where-a-head-is-due",
            "bad-33-ends-where-a-second-head-is-due",
        ],
    ),
    (
        "34: a byte behind a head that cannot follow it",
        &[
            "bad-34-hyphen-in-head",
            "bad-34-space-behind-head",
            "bad-34-bracket-behind-head",
            "bad-34-closing-bracket-behind-head",
            "bad-34-array-type-as-argument",
        ],
    ),
    (
        "35: the digit, the name's end too",
        &[
            "bad-35-letter-for-a-digit",
            "bad-35-bracket-for-a-digit",
            "bad-35-ends-behind-a-backquote",
            "bad-35-ends-behind-argument-backquote",
        ],
    ),
    (
        "36: each bracket, what follows them, and the name's end where a bracket is due",
        &[
            "bad-36-two-digits",
            "bad-36-tail-for-brackets",
            "bad-36-one-bracket-for-two",
            "bad-36-no-comma-between-arguments",
            "bad-36-space-between-arguments",
            "bad-36-one-bracket-too-many",
            "bad-36-letters-behind-brackets",
            "bad-36-letter-behind-argument-brackets",
            "bad-36-no-closing-bracket",
            "bad-36-ends-in-brackets",
            "bad-36-ends-behind-argument-head",
            "bad-36-ends-in-argument-tail",
            "bad-36-ends-behind-a-comma",
            "bad-36-ends-behind-argument-brackets",
        ],
    ),
    (
        "37: a tail's byte, nested or not, a bracket too",
        &[
            "bad-37-bracket-in-tail",
            "bad-37-bracket-in-argument-tail",
            "bad-37-tab-in-tail-behind-brackets",
        ],
    ),
    (
        "38 where a level-9 part starts, before another fault there, at the name's end too",
        &[
            "bad-33-empty-head-at-level-8",
            "bad-35-digit-at-level-8",
            "bad-36-brackets-at-level-8",
            "bad-38-level-9-at-the-name-end",
            "bad-38-level-9-of-no-byte",
            "bad-38-level-9-starts-with-a-hyphen",
        ],
    ),
    (
        "11 at the leftmost head: a wrong count's owner, an unlawful argument's own",
        &[
            "bad-11-unknown-reader-of-unknown-argument",
            "bad-11-list-of-two-unknown-arguments",
            "bad-11-two-unknown-arguments",
            "bad-11-unknown-second-argument",
            "bad-11-argument-with-wrong-count-of-unknown",
            "bad-11-enum-of-a-target-name",
            "bad-11-enum-with-an-argument",
            "bad-11-nullable-of-text-inside",
            "bad-11-nullable-of-nullable-of-text",
        ],
    ),
    (
        "reader version 0",
        &[
            "bad-12-version-01-00-00-00",
            "bad-12-version-00-01-00-00",
            "bad-12-version-00-00-01-00",
            "bad-12-version-00-00-00-01",
        ],
    ),
    (
        "7-bit numbers of five bytes, the fifth at most 0F",
        &[
            "ok-type-id-0-in-1-bytes",
            "ok-type-id-0-in-5-bytes",
            "bad-13-type-id-ff-ff-ff-ff-0f",
            "bad-08-type-id-ff-ff-ff-ff-10",
            "bad-08-type-id-81-80-80-80-80-00",
        ],
    ),
    (
        "seven bits to a byte",
        &[
            "ok-text-of-127-bytes",
            "ok-text-of-128-bytes",
            "ok-text-of-16383-bytes",
            "ok-text-of-16384-bytes",
        ],
    ),
    (
        "8 at each 7-bit number",
        &[
            "bad-08-reader-count",
            "bad-08-name-length",
            "bad-08-shared-count",
            "bad-08-type-id",
            "bad-08-text-count",
            "bad-08-resource-id",
        ],
    ),
    (
        "a type id up to the list",
        &["ok-type-id-2-of-2", "bad-13-type-id-3-of-2"],
    ),
    (
        "a resource id up to the count",
        &["ok-resource-id-1-of-1", "bad-16-page-reference-2-of-1"],
    ),
    (
        "a texture reference and a page reference",
        &[
            "ok-page-reference-to-page",
            "bad-17-texture-reference-to-page",
            "ok-kind-35-ring-of-pages-with-pictures",
            "bad-17-picture-as-page",
        ],
    ),
    (
        "Boolean 0 or 1",
        &[
            "ok-boolean-0",
            "ok-boolean-1",
            "bad-15-boolean-2",
            "bad-15-boolean-ff",
        ],
    ),
    (
        "Nullable's first byte 0 or 1",
        &[
            "ok-nullable-0",
            "ok-nullable-1",
            "bad-15-nullable-flag-2",
            "bad-15-nullable-ff",
        ],
    ),
    (
        "Char of 1 to 3 bytes",
        &[
            "ok-char-00",
            "ok-char-7f",
            "bad-15-char-80",
            "bad-15-char-c1-bf",
            "ok-char-c2-80",
            "ok-char-df-bf",
            "bad-15-char-e0-9f-bf",
            "ok-char-e0-a0-80",
            "ok-char-ed-9f-bf",
            "bad-15-char-ed-a0-80",
            "ok-char-ee-80-80",
            "ok-char-ef-bf-bf",
            "bad-15-char-f0-90-80-80",
        ],
    ),
    (
        "a Char's lead byte is judged first",
        &[
            "bad-15-char-lead-c1-alone",
            "bad-01-char-c2-cut",
            "bad-01-char-ef-cut",
            "bad-15-char-lead-f0-alone",
        ],
    ),
    (
        "UTF-8 by RFC 3629",
        &[
            "bad-15-text-80",
            "bad-15-text-c1-bf",
            "ok-text-c2-80",
            "bad-15-text-e0-9f-bf",
            "ok-text-e0-a0-80",
            "ok-text-ed-9f-bf",
            "bad-15-text-ed-a0-80",
            "bad-15-text-f0-8f-bf-bf",
            "ok-text-f0-90-80-80",
            "ok-text-f4-8f-bf-bf",
            "bad-15-text-f4-90-80-80",
            "bad-15-text-f5-80-80-80",
        ],
    ),
    (
        "DateTime",
        &[
            "ok-datetime-00-first",
            "ok-datetime-00-last",
            "bad-15-datetime-00-past-last",
            "ok-datetime-01-last",
            "bad-15-datetime-01-past-last",
            "ok-datetime-10-last",
            "bad-15-datetime-10-past-last",
            "bad-15-datetime-11-first",
        ],
    ),
    (
        "Decimal",
        &[
            "ok-decimal-scale-0",
            "ok-decimal-scale-28",
            "bad-15-decimal-scale-29",
            "ok-decimal-negative",
            "bad-15-decimal-bit-0",
            "bad-15-decimal-bit-15",
            "bad-15-decimal-bit-24",
            "bad-15-decimal-bit-30",
        ],
    ),
    (
        "format 0 to 18",
        &[
            "ok-format-00-color",
            "ok-format-18-halfvector4",
            "bad-15-format-19-of-1-by-1",
        ],
    ),
    (
        "width 1 to 4,096",
        &[
            "ok-texture-1-by-1",
            "ok-texture-4096-by-1",
            "bad-15-texture-0-by-1",
            "bad-15-texture-4097-by-1",
        ],
    ),
    (
        "height 1 to 4,096",
        &[
            "ok-texture-1-by-4096",
            "bad-15-texture-1-by-0",
            "bad-15-texture-1-by-4097",
        ],
    ),
    ("no level", &["bad-15-levels-0-of-1-by-1"]),
    (
        "the larger side",
        &["ok-levels-3-of-1-by-4", "bad-15-levels-4-of-1-by-4"],
    ),
    (
        "missing data of a level, at its size",
        &["bad-01-level-data-cut"],
    ),
    (
        "missing bytes of a text, at its count",
        &["bad-01-text-cut"],
    ),
    (
        "missing bytes of a name, at its length",
        &["bad-01-name-cut"],
    ),
    (
        "depth 32",
        &[
            "ok-thirty-two-deep",
            "bad-18-thirty-three-deep",
            "bad-18-raw-thirty-three-deep",
            "ok-depth-32-null",
            "ok-depth-32-level",
            "ok-depth-32-reference",
            "ok-depth-32-value-of-nullable",
            "bad-18-null",
            "bad-18-level",
            "bad-18-value-of-nullable",
        ],
    ),
    (
        "the four lists of a font have equal counts",
        &[
            "ok-kind-33-font",
            "bad-22-fewer-glyphs",
            "bad-22-more-cropping",
            "bad-22-fewer-kerning",
        ],
    ),
    (
        "characters rise strictly",
        &["bad-22-equal-characters", "bad-22-falling-characters"],
    ),
    (
        "no object of a font is null",
        &[
            "bad-22-null-texture",
            "bad-22-null-glyphs",
            "bad-22-null-cropping",
            "bad-22-null-characters",
            "bad-22-null-kerning",
        ],
    ),
    (
        "nothing more",
        &["bad-20-one-byte", "bad-20-byte-and-one-more"],
    ),
    (
        "the program's 32,768 bytes",
        &["ok-32768-bytes", "bad-09-input-of-32769-bytes"],
    ),
    (
        "the program's 1,024 rows",
        &["ok-1024-rows", "bad-19-1025-rows"],
    ),
];

#[test]
fn each_limit_and_place() {
    let files = kept_files();
    for (limit, names) in LIMITS {
        for name in *names {
            let file = files.iter().find(|file| file.name == *name);
            let file = file.unwrap_or_else(|| panic!("no file {name} for {limit}"));
            let start = match name.strip_prefix("bad-") {
                Some(rest) => format!("refused {} at ", rest[..2].trim_start_matches('0')),
                None => "rows ".to_string(),
            };
            assert!(file.rows.starts_with(&start), "{name} for {limit}");
        }
    }
}

#[test]
fn no_file_is_too_large_to_keep() {
    for file in kept_files() {
        assert!(file.bytes.len() <= 40_000, "{}", file.name);
    }
}
