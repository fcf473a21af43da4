//! Files to be measured.

use corpus::enums::{entry, enum_of_size};
use corpus::readers::{
    dictionary_of, list_of, list_target, nullable_target, INT32, PAGE, STRING, TEXTURE2D,
};
use corpus::values::*;
use corpus::writer::{write, File, Value};

pub struct Input {
    pub group: &'static str,
    pub name: String,
    pub bytes: Vec<u8>,
    /// The list of enum types that is lent with it.
    pub enums: Vec<u8>,
    pub rows: usize,
    pub is_refused: bool,
}

pub fn input(group: &'static str, name: impl Into<String>, file: File) -> Input {
    let written = write(&file);
    Input {
        group,
        name: name.into(),
        bytes: written.bytes,
        enums: Vec::new(),
        rows: written.rows.len(),
        is_refused: false,
    }
}

/// A file of one object by the first reader.
fn alone<N: AsRef<str>>(readers: &[N], raw: Value) -> File {
    file(readers, object(1, raw), vec![])
}

/// What long texts repeat.
const TEXTS: [(&str, &str); 5] = [
    ("of ASCII", "The quick brown fox jumps. "),
    (", two of 25 not ASCII", "Straße der Übungen, lang "),
    ("of two bytes each", "äöüß"),
    ("of three bytes each", "€日本語"),
    ("of four bytes each", "😀🦀"),
];

/// Files with one text of at most so many bytes each.
pub fn texts(size: &str, bytes: usize) -> Vec<Input> {
    let long_text = |(name, characters): (&str, &str)| {
        let text = text(&characters.repeat(bytes / characters.len()));
        let space = if name.starts_with(',') { "" } else { " " };
        let name = format!("{size}{space}{name}");
        input("texts", name, alone(&[STRING], text))
    };
    TEXTS.map(long_text).into()
}

pub fn long_texts() -> Vec<Input> {
    texts("1 MB", 1 << 20)
}

/// Texts, images, reader lists, and files of many values with about so many rows.
pub fn all(rows: usize) -> Vec<Input> {
    let mut all = long_texts();
    all.extend(images());
    all.extend(many_values(rows));
    all.extend(reader_lists());
    all
}

/// Files of about 1,000 and of about 60,000 rows, and such with padded numbers.
pub fn short_and_long() -> Vec<Input> {
    let mut inputs = all(1000);
    inputs.extend(many_values(60_000));
    inputs.extend([1000, 60_000].map(padded_objects));
    inputs
}

pub fn images() -> Vec<Input> {
    let image = |name, levels| {
        input(
            "images",
            name,
            alone(&[TEXTURE2D], texture(0, 1024, 1024, levels)),
        )
    };
    vec![
        image("1,024 by 1,024, one level", 1),
        image("1,024 by 1,024, 11 levels", 11),
    ]
}

/// A file of one list, in which an element stands so many times.
fn list_file(
    group: &'static str,
    name: &str,
    readers: &[String],
    count: usize,
    element: Value,
) -> Input {
    let elements = list(vec![element; count]);
    input(group, format!("{count} {name}"), alone(readers, elements))
}

/// A list of pages, five rows each, with about so many rows.
pub fn pages(rows: usize) -> Input {
    let readers = [list_of("System.Object"), PAGE.into(), STRING.into()];
    let title = object(3, text("A title"));
    let page = page(title, rectangle([0; 4]), reference(0), reference(0));
    list_file(
        "small objects",
        "pages",
        &readers,
        rows / 5,
        object(2, page),
    )
}

/// Files of many values, with about so many rows.
pub fn many_values(rows: usize) -> Vec<Input> {
    let plain = |target: &str| [list_of(target)];
    let boxes = |reader: &str| [list_of("System.Object"), reader.to_string()];
    let number = nullable_target("System.Int32");
    vec![
        list_file(
            "texts",
            "short texts",
            &boxes(STRING),
            rows,
            object(2, text("door opens")),
        ),
        list_file("numbers", "Int32", &plain("System.Int32"), rows, int32(9)),
        list_file(
            "numbers",
            "Vector3",
            &plain("Microsoft.Xna.Framework.Vector3"),
            rows,
            vector3([1.0, 2.0, 3.0]),
        ),
        list_file(
            "numbers",
            "Boolean",
            &plain("System.Boolean"),
            rows,
            boolean(true),
        ),
        list_file(
            "numbers",
            "Char",
            &plain("System.Char"),
            rows,
            character('x'),
        ),
        list_file(
            "small objects",
            "boxed Int32",
            &boxes(INT32),
            rows,
            object(2, int32(9)),
        ),
        list_file(
            "small objects",
            "nulls",
            &plain("System.Object"),
            rows,
            null(),
        ),
        list_file(
            "small objects",
            "nullables",
            &plain(&number),
            rows / 2,
            something(int32(4)),
        ),
        pages(rows),
        list_file(
            "nesting",
            "lists in lists to depth 32",
            &plain("System.Object"),
            rows / 31,
            nested(30, null()),
        ),
    ]
}

/// A value in so many lists.
fn nested(depth: usize, value: Value) -> Value {
    (0..depth).fold(value, |inner, _| object(1, list(vec![inner])))
}

pub fn reader_lists() -> Vec<Input> {
    let table = dictionary_of(
        "System.Int32",
        &list_target("Microsoft.Xna.Framework.Rectangle"),
    );
    let readers = vec![table; 64];
    vec![
        input(
            "readers",
            "64 readers, null",
            file(&readers, null(), vec![]),
        ),
        input("readers", "no reader, null", corpus::lawful::file_a()),
    ]
}

/// The same file with every number of its values in five bytes.
pub fn padded_objects(rows: usize) -> Input {
    let readers = [list_of("System.Object"), INT32.to_string()];
    let elements = list(vec![object(2, int32(9)); rows]);
    let mut file = alone(&readers, elements);
    corpus::lawful::pad_file(5, &mut file);
    input("small objects", format!("{rows} boxed Int32, padded"), file)
}

/// A null and so many shared objects, lists of numbers with so many rows together.
pub fn shared_lists(count: usize, rows: usize) -> Input {
    let numbers = list(vec![int32(9); rows / count - 1]);
    let shared = vec![object(1, numbers); count];
    let file = file(&[list_of("System.Int32")], null(), shared);
    input("sharing", format!("{count} shared lists"), file)
}

/// Lists of enums of a byte, and lists of enum types with a file that uses none of them.
pub fn enums() -> Vec<Input> {
    const DOOR: &str = "Coach.Door";
    let doors = |count| {
        let name = "enums of a byte";
        let door = enum_of_size(1);
        let input = list_file("enums", name, &[list_of(DOOR)], count, door);
        Input {
            enums: entry(DOOR.as_bytes(), 1),
            ..input
        }
    };
    let lists = [0, 1, 10, 100, 1000].map(enum_list);
    lists.into_iter().chain([1000, 60_000].map(doors)).collect()
}

/// A null under a list of so many enum types.
pub fn enum_list(count: usize) -> Input {
    let types = (0..count).map(|it| entry(format!("Coach.Screen.Mode{it:04}").as_bytes(), 1));
    let name = format!("null, {count} enum types listed");
    Input {
        enums: types.flatten().collect(),
        ..input("enums", name, corpus::lawful::file_a())
    }
}
