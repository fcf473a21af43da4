//! Req 04: which part of a reader's name is wrong, by number and place, in words and with a mark.

mod name_words;

use corpus::names::{all, Judged};
use fuzz::names::{named, Named};
use fuzz::Known;
use name_words::name_words;
use std::collections::BTreeMap;
use std::ops::Range;
use xnb::{count_rows, explain, Explanation, Refusal, Refused};

const NAMES: u64 = 60_000;
/// Where the name starts in the file of `file_with`.
const FIRST: usize = 13;

/// A file with one reader of this name and a null; the name's length stands in two bytes.
fn file_with(name: &[u8]) -> Vec<u8> {
    let mut file = b"XNBw\x05\x00....\x01".to_vec();
    file.push(name.len() as u8 | 0x80);
    file.push((name.len() >> 7) as u8);
    file.extend_from_slice(name);
    file.extend_from_slice(&[0; 6]);
    let length = file.len() as u32;
    file[6..10].copy_from_slice(&length.to_le_bytes());
    file
}

/// The number, the place in the name and the words, 0 and 0 for a good name, which the explanation must mark.
fn judged(name: &[u8]) -> (u32, usize, String) {
    let file = file_with(name);
    let Err(refused) = count_rows(&file) else {
        return (0, 0, String::new());
    };
    let place = refused.place as usize - FIRST;
    let explanation = explain(&file, refused, 1024);
    let shown = name.escape_ascii();
    let explanation = explanation.unwrap_or_else(|| panic!("{shown}: {refused}"));
    let reader = explanation.reader.expect("a reader");
    assert_eq!((reader.number, reader.first), (1, FIRST), "{shown}");
    assert_eq!(reader.bytes, name, "{shown}");
    let marked = marked(name, refused.refusal, place);
    assert_eq!(explanation.mark, Some(marked), "{shown}");
    check_words(name, refused.refusal, place, &explanation);
    (refused.refusal.number(), place, explanation.found)
}

/// The head that 11 complains of, else the byte at the place, or nothing at the name's end.
fn marked(name: &[u8], refusal: Refusal, place: usize) -> Range<usize> {
    let is_head = |byte: &&u8| byte.is_ascii_alphanumeric() || b"._+".contains(byte);
    let length = match refusal {
        Refusal::NameHead => name[place..].iter().take_while(is_head).count(),
        _ => name[place..].len().min(1),
    };
    place..place + length
}

/// The words name the byte that is found, or the end.
fn check_words(name: &[u8], refusal: Refusal, place: usize, explanation: &Explanation) {
    let found = match (refusal, name.get(place)) {
        (Refusal::NameHead | Refusal::NestedTooDeep, _) => return,
        (_, None) => ", found the name's end".to_string(),
        (_, Some(byte @ b' '..=b'~')) => format!(", found '{}' ({byte:02X})", char::from(*byte)),
        (_, Some(byte)) => format!(", found {byte:02X}"),
    };
    let words = &explanation.found;
    assert!(words.starts_with("reader 1: "), "{words}");
    assert!(words.ends_with(&found), "{words}: {found}");
}

/// The table of names: every fault at every position of the grammar.
#[test]
fn every_name_of_the_table_is_reported_where_it_is_wrong() {
    let names = all();
    assert!(names.len() >= 120, "only {} names", names.len());
    for Judged {
        number,
        place,
        name,
    } in &names
    {
        let (found, at, _) = judged(name.as_bytes());
        assert_eq!((found, at), (*number, *place), "{name}");
    }
}

#[test]
fn generated_names_are_reported_where_they_are_wrong() {
    let mut counts: BTreeMap<u32, u32> = BTreeMap::new();
    for seed in 0..NAMES {
        let Named {
            bytes,
            known,
            wrong,
        } = named(seed);
        let (number, place, words) = judged(&bytes);
        if let Some(known) = known {
            let shown = bytes.escape_ascii();
            assert_eq!((number, place), known, "seed {seed}: {shown}");
        }
        if let Some(wrong) = wrong {
            assert_eq!(words, name_words(1, &bytes, &wrong), "seed {seed}");
        }
        *counts.entry(number).or_default() += 1;
    }
    println!("{counts:?}");
    for number in [0, 11].into_iter().chain(33..=38) {
        let count = counts.get(&number).copied().unwrap_or_default();
        assert!(count >= 1000, "{number}: {count}");
    }
}

/// Places are in the file, whatever stands before the name.
#[test]
fn places_are_in_the_file() {
    for seed in 0..NAMES / 3 {
        let case = fuzz::names::case(seed);
        let Some(Known::Refused { number, place }) = case.known else {
            continue;
        };
        let refused = count_rows(&case.bytes).expect_err("a bad name");
        let found = (refused.refusal.number(), refused.place as usize);
        assert_eq!(found, (number, place), "seed {seed}");
        let explanation = explain(&case.bytes, refused, 1024).expect("an explanation");
        let reader = explanation.reader.expect("a reader");
        let mark = explanation.mark.expect("a mark");
        assert_eq!(reader.first + mark.start, place, "seed {seed}");
        let end = reader.first + reader.bytes.len();
        assert_eq!(case.bytes[reader.first..end], *reader.bytes, "seed {seed}");
    }
}

/// What is printed of a name with this refusal.
fn printed(name: &str) -> String {
    let file = file_with(name.as_bytes());
    let refused = count_rows(&file).expect_err("a bad name");
    let explanation = explain(&file, refused, 1024).expect("an explanation");
    let Refused { refusal, place } = refused;
    let (number, rule) = (refusal.number(), refusal.rule());
    format!("refused {number} at {place}: {rule}\n{explanation}\n")
}

/// Each number, with the name and the mark.
#[test]
fn each_part_that_is_wrong_is_shown() {
    let expected = [
        "\
refused 33 at 13: empty head
-A
^
reader 1: a head is due, found '-' (2D)
",
        "\
refused 34 at 49: bad byte in a head
Microsoft.Xna.Framework.Content.List-Reader`1[[System.Char]]
                                    ^
reader 1: a head has letters, digits, '.', '_' and '+', found '-' (2D)
",
        "\
refused 35 at 56: digit not 1 or 2
Microsoft.Xna.Framework.Content.ListReader`3[[System.Char]]
                                           ^
reader 1: 1 or 2 is due, found '3' (33)
",
        "\
refused 36 at 71: argument brackets out of form or followed by a wrong byte
Microsoft.Xna.Framework.Content.ListReader`1[[System.Char]
                                                          ^
reader 1: ']' is due, found the name's end
",
        "\
refused 37 at 57: bad byte in a tail
Microsoft.Xna.Framework.Content.ByteReader, \\x1B[2J
                                            ^^^^
reader 1: a tail has bytes 20 to 7E without brackets, found 1B
",
        "\
refused 38 at 53: nested past 8
A`1[[B`1[[C`1[[D`1[[E`1[[F`1[[G`1[[H`1[[I]]]]]]]]]]]]]]]]
                                        ^
reader 1: a name of level 9 starts here, the limit is 8
",
        "\
refused 11 at 59: a reader's name has an unknown type or wrong arguments
Microsoft.Xna.Framework.Content.ListReader`1[[Coach.Door, a]]
                                              ^^^^^^^^^^
reader 1: no type of this name is known, and no enum of it is listed
",
    ];
    for expected in expected {
        let name = expected.lines().nth(1).expect("a name");
        let name = name.replace("\\x1B", "\u{1B}");
        assert_eq!(printed(&name), expected);
    }
}

/// A long name goes on in the next line, and the mark stands below the line that holds the wrong byte.
#[test]
fn a_long_name_is_shown_with_its_mark() {
    let tail = "a".repeat(600);
    let name = format!("Microsoft.Xna.Framework.Content.ByteReader, {tail}[{tail}");
    let name = &name[..1024];
    let shown = printed(name);
    let lines: Vec<&str> = shown.lines().collect();
    assert_eq!(lines[0], "refused 37 at 657: bad byte in a tail");
    assert!(lines.iter().all(|line| line.len() <= 77), "{shown}");
    // 644 bytes stand before the bracket: eight lines of 76 bytes, and 36 in the ninth.
    assert_eq!(lines[10], format!("{}^", " ".repeat(36)));
    assert_eq!(lines[9].as_bytes()[36], b'[');
    let (before, behind) = (lines[1..10].concat(), lines[11..16].concat());
    assert_eq!(before + &behind, name);
}
