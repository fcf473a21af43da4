//! Files at the bounds of the driver's profile, with known answers.

use crate::enums::{EnumCase, EnumLimit};
use crate::limits::limit;
use crate::Known;
use corpus::enums::{enum_of_size, list_bytes};
use corpus::readers::{dictionary_of, enum_of, list_of, BYTE, PAGE, STRING, TEXTURE2D};
use corpus::values::*;
use corpus::writer::{write, File, Part, Value, WORDS_PER_ROW};

/// Each rule at its bounds; what is known is the answer of the driver's loader.
pub fn limits() -> Vec<EnumLimit> {
    let mut limits = platforms();
    limits.extend(key_counts());
    limits.extend(many_dictionaries());
    limits.extend(nested_dictionaries());
    limits.extend(reader_lists());
    limits.extend(enum_readers());
    limits.extend(pages());
    limits
}

/// A file under an empty list, with words enough; the place of its refusal, if it has a number, is marked in it.
fn placed(name: impl Into<String>, number: u32, file: File) -> EnumLimit {
    let rows = write(&file).rows.len();
    let mut limit = limit(name, number, file);
    limit.case.words = limit.case.words.max(WORDS_PER_ROW * rows);
    EnumLimit {
        name: limit.name,
        case: EnumCase {
            case: limit.case,
            enums: vec![],
        },
    }
}

/// A page without title and picture.
fn page_to(next: u32) -> Value {
    page(null(), rectangle([0; 4]), reference(0), reference(next))
}

/// A page by the first reader that leads to the first shared object, which is null, and other objects.
fn driver_file<N: AsRef<str>>(readers: &[N], others: Vec<Value>) -> File {
    let mut shared = vec![null()];
    shared.extend(others);
    file(readers, object(1, page_to(1)), shared)
}

/// 41 for any platform but Windows.
fn platforms() -> Vec<EnumLimit> {
    let mut limits = Vec::new();
    for platform in *b"wmx" {
        for flags in [0, 1] {
            let mut file = driver_file(&[PAGE], vec![]);
            file.start[3] = platform;
            file.start[5] = flags;
            let name = format!("platform {}, flags {flags}", platform as char);
            let mut limit = placed(name, 0, file);
            if platform != b'w' {
                let (number, place) = (41, 3);
                limit.case.case.known = Some(Known::Refused { number, place });
            }
            limits.push(limit);
        }
    }
    limits
}

const TEXT_KEYS: [&str; 2] = ["System.String", "System.Byte"];
const OBJECT_KEYS: [&str; 2] = ["System.Object", "System.Byte"];

/// The readers of a file with dictionaries: page 1, dictionary 2, text 3.
fn dictionary_readers([key, item]: [&str; 2]) -> [String; 3] {
    [
        PAGE.to_string(),
        dictionary_of(key, item),
        STRING.to_string(),
    ]
}

fn text_key(word: &str) -> Value {
    bound_object(3, text(word))
}

/// A file with these readers and dictionaries, and a text, so that every reader is used.
fn dictionary_file(readers: &[String; 3], dictionaries: Vec<Value>) -> File {
    let mut others = dictionaries;
    others.push(object(3, text("a")));
    driver_file(readers, others)
}

/// A dictionary with these keys, of which the later one of two is marked.
fn with_keys<T: AsRef<str>>(words: &[T], marked: Option<usize>) -> Value {
    let mut entries = Vec::new();
    for (number, word) in words.iter().enumerate() {
        let key = text_key(word.as_ref());
        let key = if marked == Some(number) {
            faulty(key)
        } else {
            key
        };
        entries.push((key, byte(1)));
    }
    object(2, dictionary(entries))
}

/// Dictionaries of so many keys, all different, or with one that is an earlier one.
fn key_counts() -> Vec<EnumLimit> {
    let mut limits = Vec::new();
    for count in [
        0, 1, 2, 3, 15, 16, 17, 18, 255, 256, 257, 1024, 1025, 30_000,
    ] {
        for (prefix, kind) in [
            ("", "short"),
            ("a prefix of all keys, as long as that ", "long"),
        ] {
            for declared in [TEXT_KEYS, OBJECT_KEYS] {
                let readers = dictionary_readers(declared);
                // In no order.
                let word = |number: usize| format!("{prefix}{}", number * 7919 % 100_003);
                let words: Vec<String> = (0..count).map(word).collect();
                let name = format!("{count} {kind} keys declared {}", declared[0]);
                let file = dictionary_file(&readers, vec![with_keys(&words, None)]);
                limits.push(placed(&name, 0, file));
                for (earlier, later) in repeats(count) {
                    let mut words = words.clone();
                    words[later] = words[earlier].clone();
                    let file = dictionary_file(&readers, vec![with_keys(&words, Some(later))]);
                    let name = format!("{name}, {later} as {earlier}");
                    limits.push(placed(name, 45, file));
                }
            }
        }
    }
    limits
}

/// The first two, the first and the last, and the last two of so many.
fn repeats(count: usize) -> Vec<(usize, usize)> {
    match count {
        0 | 1 => vec![],
        2 => vec![(0, 1)],
        _ => vec![(0, 1), (0, count - 1), (count - 2, count - 1)],
    }
}

/// 200 dictionaries of 17 keys, the same in each.
fn many_dictionaries() -> Vec<EnumLimit> {
    let words: Vec<String> = (0..17).map(|number| format!("key {number}")).collect();
    let readers = dictionary_readers(TEXT_KEYS);
    let mut limits = Vec::new();
    let all = vec![with_keys(&words, None); 200];
    limits.push(placed(
        "200 dictionaries",
        0,
        dictionary_file(&readers, all.clone()),
    ));
    for number in [0, 1, 100, 198, 199] {
        let mut all = all.clone();
        let mut repeated = words.clone();
        repeated[16] = repeated[3].clone();
        all[number] = with_keys(&repeated, Some(16));
        // A later one repeats a key too.
        if number < 199 {
            all[199] = with_keys(&repeated, None);
        }
        let name = format!("200 dictionaries, number {number} repeats a key");
        limits.push(placed(name, 45, dictionary_file(&readers, all)));
    }
    limits
}

/// A dictionary in a dictionary, with a repeated key in one of them or in both.
fn nested_dictionaries() -> Vec<EnumLimit> {
    let readers = dictionary_readers(["System.String", "System.Object"]);
    let inner = |words: [&str; 2], marked: bool| {
        let second = text_key(words[1]);
        let second = if marked { faulty(second) } else { second };
        object(
            2,
            dictionary(vec![(text_key(words[0]), null()), (second, null())]),
        )
    };
    let outer = |keys: [Value; 3], inner: Value| {
        let [one, two, three] = keys;
        object(
            2,
            dictionary(vec![(one, null()), (two, inner), (three, null())]),
        )
    };
    let (a, b, c) = (|| text_key("a"), || text_key("b"), || text_key("c"));
    let values = [
        (
            "keys of the outer in the inner",
            0,
            outer([a(), b(), c()], inner(["a", "b"], false)),
        ),
        (
            "a repeated key in the inner",
            45,
            outer([a(), b(), c()], inner(["c", "c"], true)),
        ),
        (
            "a repeated key behind the inner",
            45,
            outer([a(), b(), faulty(a())], inner(["a", "b"], false)),
        ),
        (
            "repeated before and in the inner",
            45,
            outer([a(), faulty(a()), c()], inner(["b", "b"], false)),
        ),
        (
            "repeated in and behind the inner",
            45,
            outer([a(), b(), a()], inner(["b", "b"], true)),
        ),
    ];
    let mut limits = Vec::new();
    for (name, number, value) in values {
        limits.push(placed(name, number, dictionary_file(&readers, vec![value])));
    }
    limits
}

/// A file's limit with the refusal at the name of a reader.
fn at_name(name: &str, number: u32, position: usize, mut file: File) -> EnumLimit {
    if number > 0 {
        // Between the name's length and the name.
        file.readers[position].insert(1, Part::Fault);
    }
    placed(name, number, file)
}

/// 64 readers: all used, one unused, or two of them equal.
fn reader_lists() -> Vec<EnumLimit> {
    let mut names = vec![PAGE.to_string()];
    names.extend((1..64).map(|number| enum_of(&format!("Coach.Enum{number}"))));
    let value = |position: usize| object(position as u32 + 1, enum_of_size(4));
    let all: Vec<Value> = (1..64).map(value).collect();
    let mut limits = vec![placed(
        "64 readers that are used",
        0,
        driver_file(&names, all.clone()),
    )];
    for position in [1, 2, 62, 63] {
        let mut others = all.clone();
        others.remove(position - 1);
        let file = driver_file(&names, others);
        let name = format!("64 readers, number {position} unused");
        limits.push(at_name(&name, 43, position, file));
        let mut names = names.clone();
        for (earlier, tail) in [(1, ", Coach"), (position - 1, ",")] {
            if earlier > 0 && earlier < position {
                names[position] = enum_of(&format!("Coach.Enum{earlier}{tail}"));
                let file = driver_file(&names, all.clone());
                let name = format!("64 readers, number {position} equal to {earlier}");
                limits.push(at_name(&name, 44, position, file));
            }
        }
    }
    // A resource id is no use of a reader.
    let unused = file(&[PAGE, STRING], object(1, page_to(2)), vec![null(), null()]);
    limits.push(at_name("a resource id of a reader's number", 43, 1, unused));
    let texture = object(2, texture(0, 1, 1, 1));
    let shared = driver_file(&[PAGE, TEXTURE2D], vec![texture]);
    limits.push(placed("a reader that a shared object uses", 0, shared));
    let lists = [
        PAGE.to_string(),
        list_of("System.Object"),
        list_of("System.Byte"),
        list_of("System.SByte"),
    ];
    let values = (2..=4).map(|id| object(id, list(vec![])));
    limits.push(placed(
        "lists of different types",
        0,
        driver_file(&lists, values.collect()),
    ));
    let only_argument = driver_file(
        &[PAGE.to_string(), list_of("System.Byte"), BYTE.to_string()],
        vec![object(2, list(vec![byte(1)]))],
    );
    limits.push(at_name("raw elements use no reader", 43, 2, only_argument));
    limits
}

/// Enums are told apart by name, whatever their size and their list.
fn enum_readers() -> Vec<EnumLimit> {
    let mut limits = Vec::new();
    let list = list_bytes(&[("Coach.Door", 1), ("Coach.Lamp", 1)]);
    for (one, other, number) in [
        ("Coach.Door", "Coach.Lamp", 0),
        ("Coach.Door", "Coach.Door, Coach", 44),
        ("Coach.Door", "Coach.Seat", 0),
        ("Coach.Seat", "Coach.Seat,", 44),
        ("Coach.Seat", "Coach.seat", 0),
    ] {
        for enums in [&[][..], &list] {
            let size = |name: &str| {
                let listed = !enums.is_empty() && !name.to_lowercase().contains("seat");
                if listed {
                    1
                } else {
                    4
                }
            };
            let values = vec![
                object(2, enum_of_size(size(one))),
                object(3, enum_of_size(size(other))),
            ];
            let readers = [PAGE.to_string(), enum_of(one), enum_of(other)];
            let file = driver_file(&readers, values);
            let name = format!("enums {one} and {other}, {} bytes of list", enums.len());
            let mut limit = at_name(&name, number, 2, file);
            limit.case.enums = enums.to_vec();
            limits.push(limit);
        }
    }
    limits
}

/// 46 and 47: what stands first, and pages that lead on or do not.
fn pages() -> Vec<EnumLimit> {
    let ending = || {
        page(
            null(),
            rectangle([0; 4]),
            reference(0),
            faulty(reference(0)),
        )
    };
    let list_reader = list_of("Coach.Console.Page");
    let with_list_reader = [PAGE.to_string(), list_reader];
    let page_list = |pages: Vec<Value>| {
        let pages = pages.into_iter().map(|page| bound_object(1, page));
        object(2, list(pages.collect()))
    };
    let shared_page = |next: Value| {
        let page = page(null(), rectangle([0; 4]), reference(0), next);
        file(&[PAGE], object(1, page_to(1)), vec![object(1, page)])
    };
    let mut ring = vec![];
    for next in 2..=256 {
        ring.push(object(1, page_to(next)));
    }
    ring.push(object(1, page_to(1)));
    let mut open = ring.clone();
    open[255] = object(1, ending());
    let ring_file = |pages| file(&[PAGE], object(1, page_to(1)), pages);
    vec![
        placed(
            "a page alone",
            47,
            file(&[PAGE], object(1, ending()), vec![]),
        ),
        placed("next is a null resource", 0, driver_file(&[PAGE], vec![])),
        placed("next is itself", 0, shared_page(reference(1))),
        placed(
            "the next of the next is none",
            47,
            shared_page(faulty(reference(0))),
        ),
        placed("a ring of 256 pages", 0, ring_file(ring)),
        placed("256 pages, the last without next", 47, ring_file(open)),
        placed(
            "pages in a list",
            0,
            driver_file(
                &with_list_reader,
                vec![page_list(vec![page_to(1), page_to(1)])],
            ),
        ),
        placed(
            "a page in a list without next",
            47,
            driver_file(
                &with_list_reader,
                vec![page_list(vec![page_to(1), ending()])],
            ),
        ),
        placed(
            "nothing first",
            46,
            file::<&str>(&[], faulty(null()), vec![]),
        ),
        placed(
            "a text first",
            46,
            file(&[STRING], faulty(object(1, text("Hi"))), vec![]),
        ),
        placed(
            "a page only as a shared object",
            46,
            file(&[PAGE], faulty(null()), vec![object(1, page_to(1))]),
        ),
        placed(
            "a list of pages first, without next",
            46,
            file(
                &with_list_reader,
                faulty(page_list(vec![page_to(0)])),
                vec![],
            ),
        ),
    ]
}
