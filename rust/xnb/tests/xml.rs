//! Req 13: exports and imports of the static library against the second program, every word and byte compared.

mod lent;

use corpus::folder::{kept_files, kept_files_with_enums};
use corpus::xml::kept_samples;
use fuzz::random::Random;
use fuzz::xml::{exports, imports};
use lent::Lent;
use second::Refusal;
use std::collections::BTreeMap;
use xnb::raw;
use xnb::xml::{Expected, XmlError, XmlRefused};
use xnb::{FileError, Loader, WORDS_PER_ROW};

/// How many cases are tried of each direction; FUZZ_FILES in the environment asks for another number.
fn cases() -> u64 {
    let asked = std::env::var("FUZZ_FILES").ok();
    asked.and_then(|it| it.parse().ok()).unwrap_or(40_000)
}

/// How often each refusal number was given, 0 for none.
type Counts = BTreeMap<u32, u64>;

fn count(counts: &mut Counts, answer: Result<usize, Refusal>) {
    let number = answer.map_or_else(|refusal| refusal.number, |_| 0);
    *counts.entry(number).or_default() += 1;
}

fn check_often(counts: &Counts, numbers: &[u32]) {
    println!("{counts:?}");
    for number in numbers {
        let count = counts.get(number).copied().unwrap_or(0);
        assert!(count >= 50, "{number} is given {count} times");
    }
}

/// The bytes that the second program needs, or none after another refusal.
fn needed(answer: Result<usize, Refusal>) -> Option<usize> {
    match answer {
        Ok(length) => Some(length),
        Err(refusal) => (refusal.number == 21).then_some(refusal.place),
    }
}

/// Outputs that are too small, just enough and too large.
fn some_outputs(random: &mut Random, needed: usize) -> [usize; 5] {
    [needed, needed - 1, needed + 9, random.below(needed), 0]
}

/// A file to be exported under a list.
#[derive(Clone, Copy)]
struct Exported<'f> {
    name: &'f str,
    file: &'f [u8],
    enums: &'f [u8],
}

/// Compares an export with so many words and bytes lent, all garbage before.
fn compare_export(
    random: &mut Random,
    counts: &mut Counts,
    Exported { name, file, enums }: Exported,
    (words, bytes): (usize, usize),
) -> Result<usize, Refusal> {
    let (byte, word) = (random.byte(), random.number() as u32);
    let mut linked_words = Lent::new(word, words);
    let mut linked_out = Lent::new(byte, bytes);
    let (mut second_words, mut out) = (vec![word; words], vec![byte; bytes]);
    let answer = raw::xml::export(file, enums, linked_words.middle(), linked_out.middle());
    let expected = second::xml::export(file, enums, &mut second_words, &mut out);
    let packed = match expected {
        Ok(length) => length as u64,
        Err(refusal) => (u64::from(refusal.number) << 32) + refusal.place as u64,
    };
    let reported = format!("{name}: {words} words, {bytes} bytes");
    assert_eq!(answer, packed, "{reported}");
    linked_words.check(&reported, &second_words);
    linked_out.check(&reported, &out);
    count(counts, expected);
    expected
}

/// Compares exports with many rooms, and the safe face with room for all.
fn compare_exports(random: &mut Random, counts: &mut Counts, of: Exported, words: usize) {
    let any = random.below(2 * of.file.len() + 9);
    let answer = compare_export(random, counts, of, (words, any));
    let fewer = random.below(words + 1);
    let _ = compare_export(random, counts, of, (fewer, any));
    if let Some(needed) = needed(answer) {
        for bytes in some_outputs(random, needed) {
            let _ = compare_export(random, counts, of, (words, bytes));
        }
        // Room for all rows and for one less.
        let mut table = vec![0; words];
        let rows = second::load(of.file, of.enums, &mut table).map_or(1, |it| it.rows);
        let just = WORDS_PER_ROW * rows;
        for words in [just, just - 1, just + WORDS_PER_ROW] {
            let _ = compare_export(random, counts, of, (words, needed));
        }
    }
    let words = WORDS_PER_ROW * of.file.len().min(65_536);
    let mut out = vec![0; 7 * of.file.len() + 200];
    let expected = second::xml::export(of.file, of.enums, &mut vec![0; words], &mut out);
    let face = Loader::new().with_enum_bytes(of.enums).export_xml(of.file);
    match (face, expected) {
        (Ok(xml), Ok(length)) => {
            assert!(xml.as_bytes() == &out[..length], "{}", of.name);
            check_way_back(of.name, &xml);
        }
        (Err(FileError::Refused(refused)), Err(refusal)) => {
            let reported = (refused.refusal.number(), refused.place as usize);
            assert_eq!(reported, (refusal.number, refusal.place), "{}", of.name);
        }
        (face, expected) => panic!("{}: {face:?}, {expected:?}", of.name),
    }
}

/// "Export then import keeps the texts and their order": the imported file exports the same XML.
fn check_way_back(name: &str, xml: &str) {
    let file = xnb::xml::import(xml).expect(name);
    assert!(xnb::xml::export(&file).expect(name) == xml, "{name}");
    let shortest = xnb::shorten(&file).expect(name);
    assert!(shortest == file, "{name}: not the shortest file");
}

#[test]
fn generated_files_give_the_second_programs_answers() {
    let (mut random, mut counts) = (Random::new(13), Counts::new());
    for seed in 0..cases() {
        let case = exports::case(seed);
        let name = format!("seed {seed}");
        let of = Exported {
            name: &name,
            file: &case.bytes,
            enums: &case.enums,
        };
        compare_exports(&mut random, &mut counts, of, case.words);
    }
    check_often(
        &counts,
        &[0, 1, 8, 9, 11, 13, 14, 15, 19, 20, 21, 32, 61, 62, 63],
    );
}

/// Files of all kinds, of which few are text lists.
#[test]
fn other_generated_files_give_the_second_programs_answers() {
    let (mut random, mut counts) = (Random::new(14), Counts::new());
    for seed in 0..cases() / 2 {
        let case = fuzz::case(seed);
        let name = format!("seed {seed}");
        let of = Exported {
            name: &name,
            file: &case.bytes,
            enums: &[],
        };
        compare_exports(&mut random, &mut counts, of, case.words);
    }
    check_often(&counts, &[1, 2, 3, 4, 5, 6, 7, 16, 17, 18, 22, 61]);
}

#[test]
fn limits_of_exports_give_the_second_programs_answers() {
    let (mut random, mut counts) = (Random::new(15), Counts::new());
    for limit in exports::limits() {
        let of = Exported {
            name: &limit.name,
            file: &limit.case.bytes,
            enums: &limit.case.enums,
        };
        compare_exports(&mut random, &mut counts, of, limit.case.words);
    }
    println!("{counts:?}");
}

#[test]
fn corpus_files_give_the_second_programs_answers() {
    let (mut random, mut counts) = (Random::new(16), Counts::new());
    for file in kept_files().into_iter().chain(kept_files_with_enums()) {
        for words in [0, 7, 100, WORDS_PER_ROW * 1024] {
            let of = Exported {
                name: &file.name,
                file: &file.bytes,
                enums: &file.enums,
            };
            compare_exports(&mut random, &mut counts, of, words);
        }
        let Some(kept) = &file.export else {
            continue;
        };
        let reported = match xnb::xml::export(&file.bytes) {
            Ok(xml) => xml.into_bytes(),
            Err(FileError::Refused(refused)) => {
                refusal_line(refused.refusal.number(), refused.place.into())
            }
            Err(error) => panic!("{error}"),
        };
        assert_eq!(reported, *kept, "{}", file.name);
    }
    println!("{counts:?}");
}

/// As a kept answer has it.
fn refusal_line(number: u32, place: u64) -> Vec<u8> {
    format!("refused {number} at {place}\n").into_bytes()
}

/// Compares an import to so many bytes of garbage.
fn compare_import(
    random: &mut Random,
    counts: &mut Counts,
    (name, xml): (&str, &[u8]),
    bytes: usize,
) -> Result<usize, Refusal> {
    let byte = random.byte();
    let mut linked = Lent::new(byte, bytes);
    let mut out = vec![byte; bytes];
    let answer = raw::xml::import(xml, linked.middle());
    let expected = second::xml::import(xml, &mut out);
    let reported = match expected {
        Ok(length) => (0, length as u64),
        Err(refusal) => (refusal.number, refusal.place as u64),
    };
    assert_eq!(answer, reported, "{name}: {bytes} bytes");
    linked.check(name, &out);
    count(counts, expected);
    expected
}

/// Compares imports with many rooms, and the safe face with room for all.
fn compare_imports(random: &mut Random, counts: &mut Counts, (name, xml): (&str, &[u8])) {
    let any = random.below(xml.len() + 60);
    let answer = compare_import(random, counts, (name, xml), any);
    if let Some(needed) = needed(answer) {
        for bytes in some_outputs(random, needed) {
            let _ = compare_import(random, counts, (name, xml), bytes);
        }
    }
    let mut out = vec![0; xml.len() + 60];
    let expected = second::xml::import(xml, &mut out);
    match (xnb::xml::import(xml), expected) {
        (Ok(file), Ok(length)) => assert!(file == out[..length], "{name}"),
        (Err(XmlError::Refused(XmlRefused { refusal, place })), Err(expected)) => {
            let reported = (refusal.number(), place as usize);
            assert_eq!(reported, (expected.number, expected.place), "{name}");
            if refusal == xnb::Refusal::NotExported {
                check_expected(name, xml, place as usize);
            }
        }
        (face, expected) => panic!("{name}: {face:?}, {expected:?}"),
    }
}

/// What is said to be expected at a place goes on as some export does.
fn check_expected(name: &str, xml: &[u8], place: usize) {
    let expected = Expected::at(xml, place);
    let ways: Vec<&[u8]> = match expected {
        Expected::Markup { whole, before } => vec![&whole.as_bytes()[before..]],
        Expected::ItemOrEnd { before } => {
            vec![&b"<Item>"[before..], &b"</Asset></XnaContent>"[before..]]
        }
        Expected::Text => vec![b"a", b"&amp;", b"&lt;", b"&gt;", b"&quot;", b"</Item>"],
        Expected::Entity => vec![b"amp;", b"lt;", b"gt;", b"quot;"],
        Expected::End => vec![b""],
        Expected::Character { before } => {
            let begun = &xml[place - before..place];
            let incomplete = std::str::from_utf8(begun).is_err_and(|it| it.error_len().is_none());
            assert!(incomplete, "{name}: {begun:X?}");
            return;
        }
    };
    for way in ways {
        let longer = [&xml[..place], way].concat();
        let end = longer.len();
        match second::xml::import(&longer, &mut []) {
            // It stops short, or it is whole.
            Err(Refusal { number: 64, place }) => assert_eq!(place, end, "{name}: {expected}"),
            Err(Refusal { number: 9 | 21, .. }) => {}
            other => panic!("{name}: {expected}: {other:?}"),
        }
    }
    assert!(!expected.to_string().is_empty());
}

#[test]
fn generated_xml_gives_the_second_programs_answers() {
    let (mut random, mut counts) = (Random::new(17), Counts::new());
    for seed in 0..cases() {
        let case = imports::case(seed);
        compare_imports(
            &mut random,
            &mut counts,
            (&format!("seed {seed}"), &case.xml),
        );
    }
    check_often(&counts, &[0, 21, 64]);
}

#[test]
fn limits_of_imports_give_the_second_programs_answers() {
    let (mut random, mut counts) = (Random::new(18), Counts::new());
    for limit in imports::limits() {
        compare_imports(&mut random, &mut counts, (&limit.name, &limit.case.xml));
    }
    println!("{counts:?}");
    assert!(counts[&9] > 0 && counts[&64] > 0);
}

#[test]
fn corpus_xml_gives_its_answers() {
    let (mut random, mut counts) = (Random::new(19), Counts::new());
    for sample in kept_samples() {
        let (name, xml) = (&sample.name[..], &sample.xml[..]);
        compare_imports(&mut random, &mut counts, (name, xml));
        let reported = match xnb::xml::import(xml) {
            Ok(file) => file,
            Err(XmlError::Refused(refused)) => {
                refusal_line(refused.refusal.number(), refused.place)
            }
            Err(error) => panic!("{error}"),
        };
        assert_eq!(reported, sample.answer, "{name}");
    }
    println!("{counts:?}");
}

#[test]
fn what_is_expected_is_reported_in_words() {
    let start = "<?xml version=\"1.0\" encoding=\"utf-8\"?><XnaContent><Asset Type=\"string[]\">";
    let reported = |rest: &str| {
        let xml = format!("{start}{rest}");
        let refused = xnb::xml::import(&xml).expect_err("wrong XML").refused();
        let refused = refused.expect("a rule is broken");
        assert_eq!(refused.refusal, xnb::Refusal::NotExported, "{rest}");
        Expected::at(&xml, refused.place as usize).to_string()
    };
    let between = "<Item> or </Asset></XnaContent>";
    let text = "a character, &amp; &lt; &gt; &quot; or </Item>";
    assert_eq!(reported(""), between);
    assert_eq!(reported("\n<Item>a</Item>"), between);
    assert_eq!(reported("<Item>a</Item> <Item>"), between);
    assert_eq!(reported("<item>"), "Item> or /Asset></XnaContent> behind <");
    assert_eq!(reported("<Item x"), "> behind <Item");
    assert_eq!(
        reported("<Item>Doors & steps"),
        "amp; lt; gt; or quot; behind &"
    );
    assert_eq!(reported("<Item>&ampersand;"), "; behind &amp");
    assert_eq!(reported("<Item>&apos;"), "mp; behind &a");
    assert_eq!(reported("<Item>a > b"), text);
    assert_eq!(reported("<Item>a\n"), text);
    assert_eq!(reported("<Item>a</item>"), "Item> behind </");
    assert_eq!(
        reported("<Item>\u{FFFF}"),
        "the rest of a character, behind its first 2 bytes"
    );
    assert_eq!(reported("</Asset></XnaContent>\n"), "nothing more");
    assert_eq!(reported("</Asset>"), "</XnaContent> behind </Asset>");
    let mark = Expected::at(b"\xEF\xBB\xBF<?xml", 0);
    assert_eq!(mark.to_string(), "<?xml version=\"1.0\" enco...");
}
