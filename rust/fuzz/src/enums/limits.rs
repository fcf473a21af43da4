//! Lists at every bound of Req 02, and files that use them in every place.

use super::sizes::{resized, PLACES};
use super::{EnumCase, Listed};
use crate::limits::{alone, limit};
use crate::{Case, Known, GENEROUS_WORDS};
use corpus::enums::{entry, enum_of_size, list_bytes, SIZES, TARGET_NAMES};
use corpus::lawful::{buried, file_a};
use corpus::readers::{
    array_of, dictionary_of, dictionary_target, enum_of, list_of, list_target, marked_reader,
    nullable_of, nullable_target, STRING,
};
use corpus::values::*;
use corpus::writer::{write, File, Value, WORDS_PER_ROW};

/// A case with a name.
pub struct EnumLimit {
    pub name: String,
    pub case: EnumCase,
}

const DOOR: &str = "Coach.Door";
const LAMP: &str = "Coach.Lamp";

/// The cases, all of them known.
pub fn limits() -> Vec<EnumLimit> {
    let mut limits = entries();
    limits.extend(cuts());
    limits.extend(long_lists());
    limits.extend(orders());
    limits.extend(places());
    limits.extend(other_sizes());
    limits.extend(unlisted_arguments());
    limits.extend(types());
    limits.extend(depth_and_room());
    limits.extend(many_readers());
    limits
}

/// A file that must be accepted with a list, or refused at the place marked in it where a number is given.
fn with_list(name: impl Into<String>, enums: Vec<u8>, number: u32, file: File) -> EnumLimit {
    let limit = limit(name, number, file);
    EnumLimit {
        name: limit.name,
        case: EnumCase {
            case: limit.case,
            enums,
        },
    }
}

/// File A with a list, which is refused at an entry's number if there is one.
fn only_list(name: impl Into<String>, enums: Vec<u8>, refused: Option<usize>) -> EnumLimit {
    let mut limit = with_list(name, enums, 0, file_a());
    if let Some(place) = refused {
        limit.case.case.known = Some(Known::Refused { number: 32, place });
    }
    limit
}

/// Each size byte, each byte of a name, each length of a name, each target name and its neighbours.
fn entries() -> Vec<EnumLimit> {
    let mut limits = vec![only_list("an empty list", vec![], None)];
    let mut push = |name: String, enums: Vec<u8>, lawful: bool| {
        limits.push(only_list(name, enums, (!lawful).then_some(0)));
    };
    for size in 0..=255 {
        let lawful = SIZES.contains(&size);
        push(format!("size {size}"), entry(DOOR.as_bytes(), size), lawful);
    }
    for byte in 0..=255_u8 {
        let lawful = byte.is_ascii_alphanumeric() || b"._+".contains(&byte);
        for name in [vec![byte], vec![b'E', byte], vec![byte, b'E']] {
            push(format!("name {name:02X?}"), entry(&name, 1), lawful);
        }
    }
    for length in 0..=255 {
        let name = vec![b'x'; length];
        push(
            format!("name of {length} bytes"),
            entry(&name, 8),
            length > 0,
        );
    }
    for name in TARGET_NAMES {
        let shorter = name[..name.len() - 1].to_string();
        let others = [shorter, format!("{name}s"), name.to_lowercase()];
        push(format!("name {name}"), list_bytes(&[(name, 4)]), false);
        for other in others {
            push(format!("name {other}"), list_bytes(&[(&other, 4)]), true);
        }
    }
    for (name, lawful) in [
        ("System.Enum", true),
        ("System.Array", true),
        ("Microsoft.Xna.Framework.Plane", true),
        ("Microsoft.Xna.Framework.Content.ByteReader", true),
        ("System.Byte, mscorlib", false),
        ("System.Nullable`1[[System.Byte]]", false),
        ("System.Byte[]", false),
    ] {
        push(format!("name {name}"), list_bytes(&[(name, 1)]), lawful);
    }
    limits
}

/// A list of four entries that is cut at each byte, and with each of its bytes as a bad one.
fn cuts() -> Vec<EnumLimit> {
    let names = [(DOOR, 1), (LAMP, 2), ("E", 4), ("Coach.Lamp+State", 8)];
    let whole = list_bytes(&names);
    let starts: Vec<usize> = (0..=4)
        .map(|count| list_bytes(&names[..count]).len())
        .collect();
    let mut limits = Vec::new();
    for length in 0..=whole.len() {
        let number = starts.iter().filter(|start| **start <= length).count() - 1;
        let refused = (!starts.contains(&length)).then_some(number);
        let list = whole[..length].to_vec();
        limits.push(only_list(
            format!("a list cut to {length} bytes"),
            list,
            refused,
        ));
    }
    for place in 0..whole.len() {
        let number = starts.iter().filter(|start| **start <= place).count() - 1;
        // A length byte 0 makes an empty name, a name's byte 0 is no head byte, and 0 is no size.
        let mut list = whole.clone();
        list[place] = 0;
        limits.push(only_list(
            format!("a list with byte {place} zero"),
            list,
            Some(number),
        ));
    }
    limits
}

/// Many entries, of which the last may be an earlier one.
fn long_lists() -> Vec<EnumLimit> {
    let mut limits = Vec::new();
    for count in [2, 255, 256, 257, 4_000] {
        let name = |number: usize| format!("Coach.Enum.Number{number}");
        let names: Vec<String> = (0..count).map(name).collect();
        let entries: Vec<(&str, u8)> = names.iter().map(|name| (name.as_str(), 1)).collect();
        let enums = list_bytes(&entries);
        limits.push(only_list(format!("{count} entries"), enums.clone(), None));
        for earlier in [0, count / 2, count - 1] {
            let again = entry(names[earlier].as_bytes(), 2);
            let twice = [enums.clone(), again].concat();
            let name = format!("{count} entries and number {earlier} again");
            limits.push(only_list(name, twice, Some(count)));
        }
        let last = list_of(&names[count - 1]);
        let file = alone(&[last], object(1, list(vec![enum_of_size(1)])));
        let name = format!("the last of {count} entries");
        limits.push(with_list(name, enums, 0, file));
    }
    limits
}

/// 32 before every refusal of a load.
fn orders() -> Vec<EnumLimit> {
    let bad = list_bytes(&[(DOOR, 1), (DOOR, 1)]);
    let a = write(&file_a()).bytes;
    let changed = |place: usize, byte: u8| {
        let mut bytes = a.clone();
        bytes[place] = byte;
        bytes
    };
    let files = [
        ("1, a file of no byte", vec![]),
        ("1, a file of nine bytes", a[..9].to_vec()),
        ("2", changed(0, b'Y')),
        ("3", changed(3, b'y')),
        ("4", changed(4, 4)),
        ("5", changed(5, 0x80)),
        ("6", changed(5, 2)),
        ("7", changed(6, 14)),
        ("9, a reader count", changed(10, 65)),
        ("13", changed(12, 1)),
        ("nothing", a),
    ];
    let refused = |what: &str, bytes: Vec<u8>, words: usize| EnumLimit {
        name: format!("32 before {what} with {words} words"),
        case: EnumCase {
            case: Case {
                bytes,
                words,
                known: Some(Known::Refused {
                    number: 32,
                    place: 1,
                }),
            },
            enums: bad.clone(),
        },
    };
    let mut limits = vec![refused("9, a file too long", vec![0; 16_777_217], 0)];
    for (what, bytes) in files {
        for words in [0, WORDS_PER_ROW - 1, WORDS_PER_ROW, GENEROUS_WORDS] {
            limits.push(refused(what, bytes.clone(), words));
        }
    }
    limits
}

/// Each size in each place of a type, with no value, one and three.
fn places() -> Vec<EnumLimit> {
    let mut limits = Vec::new();
    for size in SIZES {
        let enums = list_bytes(&[(LAMP, 8), (DOOR, size)]);
        for (place, file) in files_with(size) {
            limits.push(with_list(
                format!("{place}, {size} bytes"),
                enums.clone(),
                0,
                file,
            ));
        }
    }
    limits
}

/// A place, and a file with enums there.
type Placed = (String, File);

fn files_with(size: u8) -> Vec<Placed> {
    let mut files = single(size);
    for count in [0, 1, 3] {
        files.extend(containers(size, count));
        files.extend(dictionaries(size, count));
        files.extend(nested(size, count));
    }
    files
}

fn placed(place: impl Into<String>, readers: &[String], raw: Value) -> Placed {
    (place.into(), alone(readers, object(1, raw)))
}

/// One enum, or none.
fn single(size: u8) -> Vec<Placed> {
    let door = || enum_of_size(size);
    let anything = [
        list_of("System.Object"),
        enum_of(DOOR),
        enum_of("Coach.Seat"),
    ];
    let objects = list(vec![object(2, door()), object(3, enum_of_size(4)), null()]);
    let shared = file(&[enum_of(DOOR)], null(), vec![object(1, door()), null()]);
    let deep_name = corpus::names::nested(8).replace("System.Byte", DOOR);
    vec![
        placed("an object", &[enum_of(DOOR)], door()),
        placed("objects in a list", &anything, objects),
        ("a shared object".to_string(), shared),
        placed("a nullable", &[nullable_of(DOOR)], something(door())),
        placed("no value", &[nullable_of(DOOR)], nothing()),
        placed("a name of 8 levels", &[deep_name], list(vec![])),
    ]
}

fn containers(size: u8, count: usize) -> Vec<Placed> {
    let doors = || vec![enum_of_size(size); count];
    let nullable = nullable_target(DOOR);
    let mut nullables: Vec<Value> = doors().into_iter().map(something).collect();
    nullables.push(nothing());
    vec![
        placed(
            format!("an array of {count}"),
            &[array_of(DOOR)],
            array(doors()),
        ),
        placed(
            format!("a list of {count}"),
            &[list_of(DOOR)],
            list(doors()),
        ),
        placed(
            format!("{count} nullables in a list"),
            &[list_of(&nullable)],
            list(nullables),
        ),
    ]
}

fn dictionaries(size: u8, count: usize) -> Vec<Placed> {
    let door = || enum_of_size(size);
    let of = |place: &str, key: &str, value: &str, pair: (Value, Value)| {
        let pairs = dictionary(vec![pair; count]);
        placed(
            format!("{count} {place}"),
            &[dictionary_of(key, value)],
            pairs,
        )
    };
    vec![
        of("keys", DOOR, "System.Byte", (door(), byte(7))),
        of("values", "System.Byte", DOOR, (byte(7), door())),
        of("keys and values", DOOR, DOOR, (door(), door())),
    ]
}

/// Containers of enums in containers.
fn nested(size: u8, count: usize) -> Vec<Placed> {
    let door = || enum_of_size(size);
    let doors = || bound_object(2, list(vec![door(); count]));
    let pairs = bound_object(2, dictionary(vec![(door(), byte(7)); count]));
    let (nullable, lists) = (nullable_target(DOOR), list_target(DOOR));
    let dictionaries = dictionary_target(DOOR, "System.Byte");
    vec![
        placed(
            format!("lists of {count} in a list"),
            &[list_of(&lists), list_of(DOOR)],
            list(vec![doors(), null(), doors()]),
        ),
        placed(
            format!("a dictionary of {count} in an array"),
            &[array_of(&dictionaries), dictionary_of(DOOR, "System.Byte")],
            array(vec![pairs]),
        ),
        placed(
            format!("nullable keys and lists of {count}"),
            &[dictionary_of(&nullable, &lists), list_of(DOOR)],
            dictionary(vec![(something(door()), doors()), (nothing(), null())]),
        ),
    ]
}

/// Enums of each size under a list that says each size.
fn other_sizes() -> Vec<EnumLimit> {
    let mut limits = Vec::new();
    for place in PLACES {
        for size in SIZES {
            for held in 0..=9 {
                for count in if place.is_single() { 1..2 } else { 1..6 } {
                    let enums = [
                        Listed {
                            name: LAMP.to_string(),
                            size: 8,
                        },
                        Listed {
                            name: DOOR.to_string(),
                            size,
                        },
                    ];
                    limits.push(EnumLimit {
                        name: format!("{place:?}, {count} of {held} bytes, listed with {size}"),
                        case: resized(place, count, held, &enums, 1),
                    });
                }
            }
        }
    }
    limits
}

/// A file with one reader that must be refused with 11, at the mark of its name.
fn unlawful(marked: &str) -> File {
    let mut file = alone(&[""], null());
    file.readers[0] = marked_reader(marked);
    file
}

/// A head where a name is refused.
fn marked(head: &str) -> String {
    format!("»{head}")
}

/// Names that are not the listed one, and what is not lawful of a listed one.
fn unlisted_arguments() -> Vec<EnumLimit> {
    let mut limits = Vec::new();
    let listed = list_bytes(&[(DOOR, 1)]);
    let mut others: Vec<String> = vec![
        DOOR[1..].to_string(),
        DOOR[..DOOR.len() - 1].to_string(),
        format!("{DOOR}s"),
        format!("s{DOOR}"),
        DOOR.to_lowercase(),
    ];
    for place in 0..DOOR.len() {
        let mut bytes = DOOR.as_bytes().to_vec();
        bytes[place] = b'_';
        others.push(String::from_utf8(bytes).expect("text"));
    }
    for other in &others {
        let head = &marked(other);
        let inside = list_of(&list_target(&nullable_target(head)));
        for reader in [
            list_of(head),
            array_of(head),
            nullable_of(head),
            dictionary_of(head, DOOR),
            dictionary_of(DOOR, head),
            inside,
        ] {
            limits.push(with_list(&reader, listed.clone(), 11, unlawful(&reader)));
            // The same where the list has both.
            let both = list_bytes(&[(other, 2), (DOOR, 1)]);
            let file = alone(&[reader.replace('»', "")], null());
            limits.push(with_list(format!("{reader}, listed"), both, 0, file));
        }
        // An enum's own reader takes four bytes then.
        let file = alone(&[enum_of(other)], object(1, enum_of_size(4)));
        limits.push(with_list(format!("enum {other}"), listed.clone(), 0, file));
    }
    for reader in [
        list_of(&format!("»{DOOR}`1[[System.Byte]]")),
        list_of(&format!("»{DOOR}`2[[System.Byte],[System.Byte]]")),
        nullable_of(&format!("»{DOOR}`1[[{DOOR}]]")),
        enum_of(&format!("»{DOOR}`1[[System.Byte]]")),
        nullable_of(&marked(&nullable_target(DOOR))),
        nullable_of(&marked(&list_target(DOOR))),
        enum_of("»System.Byte"),
        marked(DOOR),
        format!("»{DOOR}Reader"),
    ] {
        limits.push(with_list(&reader, listed.clone(), 11, unlawful(&reader)));
    }
    limits
}

/// 14: two enums are two types, whatever their sizes, and no numbers.
fn types() -> Vec<EnumLimit> {
    let mut limits = Vec::new();
    for (one, other) in [(1, 1), (2, 2), (4, 4), (8, 8), (1, 4)] {
        let enums = list_bytes(&[(DOOR, one), (LAMP, other)]);
        for (found, number) in [
            (list_of(DOOR), 0),
            (list_of(&format!("{DOOR}, Coach")), 0),
            (list_of(LAMP), 14),
            (list_of("System.Byte"), 14),
            (list_of("System.Int32"), 14),
            (list_of(&nullable_target(DOOR)), 14),
            (array_of(DOOR), 14),
            (enum_of(DOOR), 14),
            (nullable_of(DOOR), 14),
            (STRING.to_string(), 14),
        ] {
            let readers = [list_of(&list_target(DOOR)), found];
            let element = faulty(bound_object(2, list(vec![])));
            let file = alone(&readers, object(1, list(vec![element])));
            let name = format!("{} declared, {} bytes each", readers[1], one + other);
            limits.push(with_list(name, enums.clone(), number, file));
        }
    }
    limits
}

/// 18 and 19 at an enum, and 19 before its bytes.
fn depth_and_room() -> Vec<EnumLimit> {
    let mut limits = Vec::new();
    let readers = [list_of("System.Object"), list_of(DOOR)];
    for size in SIZES {
        let enums = list_bytes(&[(DOOR, size)]);
        let doors = |element: Value| object(2, list(vec![element]));
        let deepest = alone(&readers, buried(31, doors(enum_of_size(size))));
        limits.push(with_list(
            format!("depth 32, {size} bytes"),
            enums.clone(),
            0,
            deepest,
        ));
        let deeper = alone(&readers, buried(32, doors(faulty(enum_of_size(size)))));
        limits.push(with_list(
            format!("depth 33, {size} bytes"),
            enums.clone(),
            18,
            deeper,
        ));

        let no_bytes = faulty(fixed(15, &[]));
        let elements = vec![enum_of_size(size), no_bytes];
        let file = alone(&[list_of(DOOR)], object(1, list(elements)));
        let no_room = with_list(format!("19, {size} bytes"), enums.clone(), 19, file.clone());
        let no_bytes = with_list(format!("1, {size} bytes"), enums, 1, file);
        for (mut limit, rows) in [(no_room, 2), (no_bytes, 3)] {
            limit.case.case.words = WORDS_PER_ROW * rows;
            limits.push(limit);
        }
    }
    limits
}

/// 64 readers of 64 enums with names of 255 bytes, the last reader used.
fn many_readers() -> Vec<EnumLimit> {
    let names: Vec<String> = (10..74)
        .map(|number| format!("{}{number}", "n".repeat(253)))
        .collect();
    let entries: Vec<(&str, u8)> = names.iter().map(|name| (name.as_str(), 2)).collect();
    let readers: Vec<String> = names.iter().map(|name| list_of(name)).collect();
    let file = alone(&readers, object(64, list(vec![enum_of_size(2)])));
    let enums = list_bytes(&entries);
    let without_last = list_bytes(&entries[..63]);
    let mut unlisted = file.clone();
    unlisted.readers[63] = marked_reader(&list_of(&marked(&names[63])));
    vec![
        with_list("64 readers of 64 enums", enums, 0, file),
        with_list("64 readers of 63 enums", without_last, 11, unlisted),
    ]
}
