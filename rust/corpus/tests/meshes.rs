//! Every field, code and limit of Req 05's types has a sample in the folder; the lists here are typed from 000 and 02.

use corpus::folder::kept_files;
use corpus::writer::Row;
use corpus::Sample;

fn rows(sample: &Sample) -> Vec<Row> {
    let row = |line: &str| -> Row {
        let words: Vec<u32> = line
            .split(' ')
            .map(|it| it.parse().expect("a number"))
            .collect();
        words[1..].try_into().expect("seven words")
    };
    sample.rows.lines().skip(1).map(row).collect()
}

fn sample<'s>(samples: &'s [Sample], name: &str) -> &'s Sample {
    let found = samples.iter().find(|sample| sample.name == name);
    found.unwrap_or_else(|| panic!("no kept file {name}"))
}

/// The children of a row, and the number that each holds.
fn fields(sample: &Sample, owner: usize) -> Vec<(u32, u32)> {
    let of_owner = |row: &Row| row[4] == owner as u32 + 1;
    let rows = rows(sample).into_iter().filter(of_owner);
    rows.map(|row| (row[0], number(sample, &row))).collect()
}

/// The first four bytes of a value, or fewer, as a number.
fn number(sample: &Sample, row: &Row) -> u32 {
    let first = row[1] as usize;
    let bytes = &sample.bytes[first..first + (row[2] as usize).min(4)];
    bytes
        .iter()
        .rev()
        .fold(0, |sum, byte| sum << 8 | u32::from(*byte))
}

fn kinds(sample: &Sample) -> Vec<u32> {
    rows(sample).iter().map(|row| row[0]).collect()
}

/// "Children are all of 000's fields, counts and sizes in file order, a bounding sphere as its Vector3 and Single."
#[test]
fn the_fields_of_each_type_in_the_order_of_000() {
    let samples = kept_files();
    let of = |name: &str| kinds(sample(&samples, name));
    assert_eq!(of("ok-kind-37-index-buffer-of-16-bit"), [37, 11, 6, 41]);
    let element = [6, 5, 5, 6];
    let declaration = [&[6, 6][..], &element, &element].concat();
    assert_eq!(
        of("ok-kind-38-vertex-declaration"),
        [&[38][..], &declaration].concat()
    );
    let buffer = [&[39, 38, 6, 6][..], &element, &[6, 41]].concat();
    assert_eq!(of("ok-kind-39-vertex-buffer"), buffer);
    let bone = [13, 26];
    let mesh = [13, 42, 24, 9, 0, 6];
    let part = [6, 6, 6, 6, 0, 36, 36, 36];
    let end = [42, 0];
    let one_mesh = [&[40, 6][..], &bone, &[42, 6], &[6], &mesh, &end].concat();
    assert_eq!(of("ok-kind-40-model-of-one-mesh"), one_mesh);
    let mut nameless = mesh;
    nameless[0] = 0;
    let one_part = [&[40, 6, 6][..], &nameless, &part, &end].concat();
    assert_eq!(of("ok-kind-40-model-of-one-part"), one_part);
    let three_bones = [
        &[40, 6][..],
        &[13, 26, 0, 26, 13, 26],
        &[42, 6, 42, 42],
        &[42, 6],
        &[42, 6, 42, 42, 42, 42],
        &[6],
        &end,
    ];
    assert_eq!(of("ok-kind-42-model-of-three-bones"), three_bones.concat());
}

/// Fields are children of their owner; a raw declaration's fields are its own, and it has detail 0.
#[test]
fn rows_are_flat() {
    let samples = kept_files();
    let gauge = rows(sample(&samples, "ok-gauge"));
    assert_eq!(gauge[0][3], 1 + 6 + 8 + 1 + 2 * 6 + 3 * 8 + 2);
    let direct = gauge.iter().filter(|row| row[4] == 1).count();
    assert_eq!(direct as u32, gauge[0][3]);
    let buffer = rows(sample(&samples, "ok-kind-39-vertex-buffer"));
    assert_eq!(buffer[1][3..6], [6, 1, 0]);
    assert!(buffer[2..8].iter().all(|row| row[4] == 2));
    assert!(buffer[8..].iter().all(|row| row[4] == 1));
}

/// Each element format of 000, 0 to 11, and each element usage, 0 to 12, and what lies just past them.
#[test]
fn each_element_format_and_usage() {
    let samples = kept_files();
    let elements = |name: &str, field: usize| -> Vec<u32> {
        let fields = fields(sample(&samples, name), 0);
        let elements = fields[2..].chunks_exact(4);
        elements.map(|element| element[field].1).collect()
    };
    let formats: Vec<u32> = (0..=11).collect();
    assert_eq!(elements("ok-declaration-of-every-format", 1), formats);
    let usages: Vec<u32> = (0..=12).collect();
    assert_eq!(elements("ok-declaration-of-every-usage", 2), usages);
    // A declaration object at 72 has its type id, stride, count and offset before the format.
    for (what, first, place) in [("format", 12, 13 + 72), ("usage", 13, 17 + 72)] {
        for code in [
            first.to_string(),
            "80000000".to_string(),
            "ffffffff".to_string(),
        ] {
            let name = format!("bad-15-element-{what}-{code}");
            let sample = sample(&samples, &name);
            assert_eq!(sample.rows, format!("refused 15 at {place}\n"), "{name}");
            let value = u32::from_str_radix(&code, if code.len() > 2 { 16 } else { 10 });
            let bytes = value.expect("a code").to_le_bytes();
            assert_eq!(sample.bytes[place..place + 4], bytes, "{name}");
        }
    }
}

/// "Index data must be a multiple of 2 or 4 bytes as its flag says."
#[test]
fn each_remainder_of_index_data() {
    let samples = kept_files();
    for (bits, lawful, broken) in [
        (16, vec![0, 2], vec![1, 3]),
        (32, vec![0, 4], vec![1, 2, 3, 5, 6, 7]),
    ] {
        for size in lawful {
            let name = format!("ok-index-data-{size}-of-{bits}-bit");
            let expected = [(11, u32::from(bits == 16)), (6, size)];
            assert_eq!(fields(sample(&samples, &name), 0)[..2], expected, "{name}");
        }
        for size in broken {
            let name = format!("bad-15-index-data-{size}-of-{bits}-bit");
            let sample = sample(&samples, &name);
            assert_eq!(sample.rows, "refused 15 at 68\n", "{name}");
            assert_eq!(sample.bytes[67..69], [u8::from(bits == 16), size], "{name}");
        }
    }
}

/// Bone references of one byte with 254 bones, and of four with 255.
#[test]
fn bone_references_at_254_and_255_bones() {
    let samples = kept_files();
    let references = |rows: &[Row]| -> Vec<u32> {
        let is_reference = |row: &&Row| row[0] == 42;
        rows.iter().filter(is_reference).map(|row| row[2]).collect()
    };
    let few = sample(&samples, "ok-model-of-254-bones");
    assert_eq!(references(&rows(few)), vec![1; 255]);
    // All but the tag of 255 bones: a type id, a count, names, matrices, references and counts, a count, a reference.
    let many = sample(&samples, "bad-19-model-of-255-bones");
    let primary = rows(few)[0][1] as usize;
    let tag = primary + 1 + 4 + 255 * (1 + 64) + 255 * (4 + 4) + 4 + 4;
    assert_eq!(many.rows, format!("refused 19 at {tag}\n"));
    assert_eq!(many.bytes.len(), tag + 1);
}

/// The other rules of Req 05, with the files that show them.
const RULES: &[(&str, &[&str])] = &[
    (
        "empty data has a row",
        &[
            "ok-index-data-0-of-16-bit",
            "ok-vertex-buffer-of-no-vertex",
            "ok-vertex-stride-0",
        ],
    ),
    (
        "no element",
        &[
            "ok-declaration-of-no-element",
            "ok-vertex-buffer-of-no-element",
        ],
    ),
    (
        "strides 0 and 2^32 - 1",
        &[
            "ok-declaration-with-stride-0",
            "ok-declaration-with-stride-ffffffff",
            "ok-vertex-stride-0-of-ffffffff",
            "ok-vertex-stride-ffffffff-of-no-vertex",
        ],
    ),
    (
        "index data's size before its end and its row",
        &[
            "bad-15-index-size-ffffffff",
            "bad-15-index-size-before-its-data-has-no-row",
            "bad-19-index-data-without-a-row",
            "bad-19-index-size-without-a-row",
        ],
    ),
    (
        "missing index data at its first byte",
        &["bad-01-index-data-cut", "bad-01-index-size-fffffffe"],
    ),
    (
        "vertex data without overflow",
        &[
            "bad-01-vertex-data-cut",
            "bad-01-vertex-stride-ffffffff",
            "bad-01-vertex-product-of-2-to-the-32",
            "bad-01-vertex-product-of-2-to-the-32-and-4",
            "bad-01-vertex-product-of-ffffffff-squared",
            "bad-20-vertex-data-and-one-byte-more",
        ],
    ),
    (
        "a bone reference above the count",
        &[
            "ok-bone-references-to-the-last-bone",
            "bad-15-bone-parent-2-of-1",
            "bad-15-bone-child-3-of-2",
            "bad-15-mesh-bone-1-of-0",
            "bad-15-root-bone-1-of-0",
            "bad-15-bone-parent-255-of-254",
            "bad-15-bone-parent-256-of-255",
        ],
    ),
    (
        "vertex buffers and index buffers",
        &[
            "ok-gauge",
            "bad-17-vertex-reference-to-index-buffer",
            "bad-17-index-reference-to-vertex-buffer",
            "bad-17-vertex-reference-to-declaration",
            "bad-17-index-reference-to-texture",
        ],
    ),
    (
        "effects are null",
        &[
            "ok-gauge",
            "ok-parts-with-null-resources",
            "bad-17-effect-reference-to-texture",
            "bad-17-effect-reference-to-page",
            "bad-17-effect-reference-to-vertex-buffer",
            "bad-16-effect-reference-4-of-3",
        ],
    ),
    (
        "17 last and in row order",
        &[
            "bad-17-second-part-first-of-three-faults",
            "bad-17-page-in-a-mesh-tag-before-its-part",
            "bad-20-before-a-wrong-effect",
        ],
    ),
    (
        "a tag that leads into a ring",
        &["ok-model-tag-leads-into-a-ring"],
    ),
    (
        "tags are declared Object",
        &["ok-model-of-models", "bad-13-mesh-tag-past-the-list"],
    ),
    (
        "names are declared String",
        &[
            "ok-kind-42-model-of-three-bones",
            "bad-14-bone-name-that-is-no-text",
            "bad-14-mesh-name-that-is-no-text",
        ],
    ),
    (
        "a declaration elsewhere is an object",
        &[
            "ok-declarations-as-objects",
            "ok-kind-38-vertex-declaration",
        ],
    ),
    (
        "the four as declared types",
        &[
            "bad-14-index-buffer-where-vertex-buffer-is-declared",
            "bad-14-vertex-buffer-where-declaration-is-declared",
            "bad-14-declaration-where-model-is-declared",
            "bad-14-model-where-index-buffer-is-declared",
        ],
    ),
    (
        "depth 32",
        &[
            "ok-depth-32-index-data",
            "ok-depth-32-element",
            "ok-depth-32-raw-declaration",
            "ok-depth-32-root-bone",
            "bad-18-index-flag",
            "bad-18-stride",
            "bad-18-stride-of-a-raw-declaration",
            "bad-18-raw-declaration",
            "bad-18-bone-count",
        ],
    ),
    ("padding", &["ok-gauge-with-numbers-in-3-bytes"]),
];

#[test]
fn each_rule_has_its_files() {
    let samples = kept_files();
    for (rule, names) in RULES {
        for name in *names {
            let rows = &sample(&samples, name).rows;
            let start = match name.strip_prefix("bad-") {
                Some(rest) => format!("refused {} at ", rest[..2].trim_start_matches('0')),
                None => "rows ".to_string(),
            };
            assert!(rows.starts_with(&start), "{name} for {rule}");
        }
    }
}

#[test]
fn there_are_many_samples_of_meshes() {
    let readers = [
        "IndexBufferReader",
        "VertexDeclarationReader",
        "VertexBufferReader",
        "ModelReader",
    ];
    let has = |sample: &Sample, reader: &str| {
        let name = format!("Microsoft.Xna.Framework.Content.{reader}").into_bytes();
        sample.bytes.windows(name.len()).any(|part| part == name)
    };
    let samples = kept_files();
    let of_meshes = samples
        .iter()
        .filter(|it| readers.iter().any(|reader| has(it, reader)));
    let count = of_meshes.count();
    assert!(count >= 120, "only {count} samples");
}
