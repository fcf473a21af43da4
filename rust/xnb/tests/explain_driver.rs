//! Explanations of the driver's refusals, held to the fields and rows that were written.

use corpus::writer::{Field, Role, Row, Written};
use fuzz::driver::{undamaged, Undamaged};
use fuzz::Known;
use std::collections::BTreeMap;
use xnb::{Explanation, Kind, Loader};

/// How many files are tried; FUZZ_FILES in the environment asks for another number.
fn files() -> u64 {
    let asked = std::env::var("FUZZ_FILES").ok();
    asked.and_then(|it| it.parse().ok()).unwrap_or(10_000)
}

fn fields(written: &Written, role: Role) -> impl Iterator<Item = &Field> {
    written.fields.iter().filter(move |it| it.role == role)
}

/// Which reader has its name's first byte here, counted from 1.
fn reader_at(written: &Written, place: usize) -> usize {
    let mut names = fields(written, Role::NameLength);
    names.position(|it| it.end == place).expect("a name") + 1
}

/// The number of the row that a seven-bit number belongs to.
fn row_of(written: &Written, field: &Field) -> usize {
    let start = field.start as u32;
    let holds = |row: &Row| row[1] <= start && start < row[1] + row[2];
    written.rows.iter().rposition(holds).expect("a row")
}

/// A number that is padded.
fn padded(written: &Written, place: usize) -> String {
    let field = written.fields.iter().find(|it| it.start == place);
    let field = field.expect("a field");
    let row = || row_of(written, field);
    let what = match field.role {
        Role::ReaderCount => "the reader count".to_string(),
        Role::SharedCount => "the shared count".to_string(),
        Role::NameLength => {
            let reader = reader_at(written, field.end);
            format!("the length of the name of reader {reader}")
        }
        Role::FreeTypeId | Role::BoundTypeId => format!("the type id of row {}", row()),
        Role::ResourceId => format!("the resource id of row {}", row()),
        Role::TextCount => format!("the text count of row {}", row()),
        role => panic!("{role:?} is no seven-bit number"),
    };
    let bytes = &written.bytes[field.start..field.end];
    let value = second::read_seven(bytes).expect("a number").value;
    let (width, needed) = (bytes.len(), second::shortest_seven(value).len());
    format!("{what} is {value} in {width} bytes, {needed} would do")
}

/// The text of a row, which is an object.
fn text(written: &Written, row: usize) -> &str {
    let [_, first, length, ..] = written.rows[row];
    let bytes = &written.bytes[first as usize..][..length as usize];
    let behind = |bytes: &'_ [u8]| bytes.iter().position(|it| *it < 0x80).expect("an end") + 1;
    let id = behind(bytes);
    let count = behind(&bytes[id..]);
    std::str::from_utf8(&bytes[id + count..]).expect("a text")
}

fn quoted(text: &str) -> String {
    let start: String = text.chars().take(40).collect();
    match start.len() == text.len() {
        true => format!("{text:?}"),
        false => format!("{start:?}..."),
    }
}

/// The words for a file that breaks this rule first.
fn words(written: &Written, targets: &[String], number: u32, place: usize) -> String {
    let rows = &written.rows;
    match number {
        41 => {
            let platform = char::from(written.bytes[3]).escape_default();
            format!("the platform is {platform}, w is taken")
        }
        42 => padded(written, place),
        43 => format!("no type id names reader {}", reader_at(written, place)),
        44 => {
            let names: Vec<&Field> = fields(written, Role::NameLength).collect();
            let later = reader_at(written, place);
            let target = &targets[later - 1];
            let earlier = targets.iter().position(|it| it == target);
            let earlier = earlier.expect("an earlier reader");
            let (before, first) = (earlier + 1, names[earlier].end);
            format!("reader {later} reads {target}, as reader {before} does, whose name is at byte {first}")
        }
        45 => {
            let is_key = |row: &Row| row[0] == 13 && row[1] as usize == place;
            let later = rows.iter().position(is_key).expect("a key");
            let dictionary = rows[later][4] as usize - 1;
            let children = (0..rows.len()).filter(|it| rows[*it][4] as usize == dictionary + 1);
            let mut keys = children.step_by(2);
            let is_equal =
                |key: &usize| rows[*key][0] == 13 && text(written, *key) == text(written, later);
            let earlier = keys.find(is_equal).expect("an earlier key");
            let (key, first) = (quoted(text(written, later)), rows[earlier][1]);
            format!(
                "the key {key} of row {later} repeats that of row {earlier} at byte {first}, in the dictionary of row {dictionary}"
            )
        }
        46 => {
            let kind = Kind::of_number(rows[0][0]).expect("a kind");
            format!("the first object is of kind {kind}")
        }
        47 => {
            let is_next = |row: &Row| row[0] == 36 && row[1] as usize == place;
            let next = rows.iter().position(is_next).expect("a reference");
            let page = rows[next][4] as usize - 1;
            match rows[page + 1][0] {
                0 => format!("the page without a title of row {page} has no next page"),
                _ => {
                    let title = quoted(text(written, page + 1));
                    format!("the page {title} of row {page} has no next page")
                }
            }
        }
        _ => panic!("{number} is none of the driver's"),
    }
}

#[test]
fn words_are_those_of_the_rule_that_was_broken() {
    let mut counts: BTreeMap<u32, u32> = BTreeMap::new();
    for seed in 0..files() {
        let Undamaged {
            case: made,
            written,
            targets,
            ..
        } = undamaged(seed);
        let Some(Known::Refused { number, place }) = made.case.known else {
            continue;
        };
        let file = &made.case.bytes;
        let loader = Loader::new().with_enum_bytes(&made.enums);
        let refused = loader.load_driver(file).expect_err("a broken rule");
        let answer = (refused.refusal.number(), refused.place as usize);
        assert_eq!(answer, (number, place), "seed {seed}");
        let explanation = loader.explain(file, refused, made.case.words);
        let Some(Explanation {
            found,
            reader,
            mark: None,
            ..
        }) = explanation
        else {
            panic!("seed {seed}: no words, or a mark");
        };
        let expected = words(&written, &targets, number, place);
        assert_eq!(found, expected, "seed {seed}");
        let reader = reader.map(|it| (it.number, it.first, it.bytes));
        let expected = matches!(number, 43 | 44).then(|| {
            let number = reader_at(&written, place);
            let name = fields(&written, Role::NameLength).nth(number - 1);
            let end = name.expect("a name").data_end;
            (number, place, &written.bytes[place..end])
        });
        assert_eq!(reader, expected, "seed {seed}");
        *counts.entry(number).or_default() += 1;
    }
    println!("{counts:?}");
    assert_eq!(counts.len(), 7, "{counts:?}");
    assert!(counts.values().all(|count| *count >= 20), "{counts:?}");
}
