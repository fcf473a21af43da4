//! Req 13 over generated files and XML: the second program's exports and imports.

use fuzz::xml::exports::{self, ExportCase};
use fuzz::xml::imports::{self, ImportCase};
use fuzz::xml::{file_of, xml_of, XmlKnown};
use second::xml::{export, import};
use second::{load, Refusal, WORDS_PER_ROW};
use std::collections::BTreeMap;

/// How many cases are tried; FUZZ_FILES in the environment asks for another number.
fn cases() -> u64 {
    let asked = std::env::var("FUZZ_FILES").ok();
    asked.and_then(|it| it.parse().ok()).unwrap_or(30_000)
}

type Answer = Result<usize, Refusal>;

/// Longer than anything that a small case gives.
const ROOM: usize = 1 << 16;

/// The answer, and the output that is garbage before.
fn tried(bytes: usize, call: impl FnOnce(&mut [u8]) -> Answer) -> (Answer, Vec<u8>) {
    let mut out = vec![0xEE; bytes];
    let answer = call(&mut out);
    let untouched = &out[answer.unwrap_or(0)..];
    assert!(untouched.iter().all(|&byte| byte == 0xEE));
    (answer, out)
}

/// Compares a call with what is known, and tries it with outputs too small, just enough and more.
///
/// Answers what was written, or the refusal.
fn check(
    name: &str,
    known: &Option<XmlKnown>,
    mut call: impl FnMut(&mut [u8]) -> Answer,
) -> Result<Vec<u8>, Refusal> {
    let (needed, _) = tried(0, &mut call);
    let Err(refusal @ Refusal { number: 21, place }) = needed else {
        let refusal = needed.expect_err("something is always written");
        assert_eq!(tried(ROOM, &mut call).0, Err(refusal), "{name}");
        let Refusal { number, place } = refusal;
        if let Some(known) = known {
            assert_eq!(*known, XmlKnown::Refused { number, place }, "{name}");
        }
        return Err(refusal);
    };
    assert_eq!(tried(place - 1, &mut call).0, Err(refusal), "{name}");
    let (answer, out) = tried(place, &mut call);
    assert_eq!(answer, Ok(place), "{name}");
    let (answer, longer) = tried(place + 9, &mut call);
    assert_eq!(answer, Ok(place), "{name}");
    assert!(longer[..place] == out, "{name}");
    if let Some(known) = known {
        assert!(*known == XmlKnown::Written(out.clone()), "{name}");
    }
    Ok(out)
}

/// Checks an export with its words: those of a load, or zero.
fn check_export(name: &str, case: &ExportCase) -> Result<Vec<u8>, Refusal> {
    let mut loaded = vec![7; case.words];
    let load_answer = load(&case.bytes, &case.enums, &mut loaded);
    let zero = vec![0; case.words];
    let answer = check(name, &case.known, |out| {
        let mut words = vec![0xAAAA_AAAA; case.words];
        let answer = export(&case.bytes, &case.enums, &mut words, out);
        let expected = if answer.is_ok() { &loaded } else { &zero };
        assert!(words == *expected, "{name}: other words");
        answer
    });
    if let Err(refusal) = load_answer {
        assert_eq!(answer, Err(refusal), "{name}");
    }
    answer
}

fn check_import(name: &str, case: &ImportCase) -> Result<Vec<u8>, Refusal> {
    check(name, &case.known, |out| import(&case.xml, out))
}

/// The number of an answer, 0 for none.
fn number(answer: &Result<Vec<u8>, Refusal>) -> u32 {
    answer.as_ref().map_or_else(|refusal| refusal.number, |_| 0)
}

/// "Export then import keeps the texts and their order", and the shortest file then gives the same XML.
fn check_way_back(name: &str, xml: &[u8]) {
    let case = ImportCase {
        xml: xml.to_vec(),
        known: None,
    };
    let file = check_import(name, &case).expect("an export can be imported");
    let rows = file.len() / 2;
    let again = ExportCase {
        bytes: file,
        enums: vec![],
        words: WORDS_PER_ROW * rows,
        known: Some(XmlKnown::Written(xml.to_vec())),
    };
    check_export(name, &again).expect("an imported file can be exported");
}

#[test]
fn generated_files_give_what_is_known_and_every_refusal() {
    let mut numbers = BTreeMap::new();
    for seed in 0..cases() {
        let case = exports::case(seed);
        let name = format!("seed {seed}");
        let answer = check_export(&name, &case);
        *numbers.entry(number(&answer)).or_insert(0) += 1;
        if let Ok(xml) = answer {
            check_way_back(&name, &xml);
        }
    }
    println!("{numbers:?}");
    for number in [0, 1, 11, 13, 15, 19, 20, 32, 61, 62, 63] {
        let count = numbers.get(&number).copied().unwrap_or(0);
        assert!(count >= 50, "refusal {number} occurs {count} times");
    }
}

#[test]
fn limits_of_exports() {
    for limit in exports::limits() {
        assert!(limit.case.known.is_some(), "{}", limit.name);
        if let Ok(xml) = check_export(&limit.name, &limit.case) {
            let file = check_import(&limit.name, &ImportCase { xml, known: None });
            assert!(file == Ok(limit.case.bytes), "{}", limit.name);
        }
    }
}

#[test]
fn generated_xml_gives_what_is_known_and_every_refusal() {
    let (mut numbers, mut placed) = (BTreeMap::new(), 0);
    for seed in 0..cases() {
        let case = imports::case(seed);
        let name = format!("seed {seed}");
        let answer = check_import(&name, &case);
        *numbers.entry(number(&answer)).or_insert(0) += 1;
        match answer {
            // Import takes only what the export can write.
            Ok(_) => check_way_back(&name, &case.xml),
            Err(refusal) if case.xml.len() < 400 => {
                check_place(&name, &case.xml, refusal.place);
                placed += 1;
            }
            Err(_) => {}
        }
    }
    println!("{numbers:?}, {placed} places tried");
    assert!(numbers[&0] > 5_000 && placed > 10_000);
}

#[test]
fn limits_of_imports() {
    let mut numbers = BTreeMap::new();
    for limit in imports::limits() {
        assert!(limit.case.known.is_some(), "{}", limit.name);
        let answer = check_import(&limit.name, &limit.case);
        *numbers.entry(number(&answer)).or_insert(0) += 1;
        if let Ok(file) = answer {
            let mut words = vec![0; WORDS_PER_ROW * 65_536];
            let rows = load(&file, &[], &mut words).expect(&limit.name).rows;
            assert!(rows <= 65_536, "{}", limit.name);
        }
    }
    assert_eq!(numbers, BTreeMap::from([(0, 12), (9, 4), (64, 32)]));
}

/// The bytes before the place begin some export, and with the byte at the place they begin none.
fn check_place(name: &str, xml: &[u8], place: usize) {
    assert!(begins_an_export(&xml[..place]), "{name}: before {place}");
    if place < xml.len() {
        assert!(!begins_an_export(&xml[..=place]), "{name}: at {place}");
    }
}

/// Whether some export begins with these bytes: what is begun at their end is brought to an end in every way there is.
fn begins_an_export(start: &[u8]) -> bool {
    let whole = xml_of(&["&<>\"".to_string()]);
    let characters: [&[u8]; 8] = [
        b"",
        b"\x80",
        b"\xA0\x80",
        b"\x80\x80",
        b"\x90\x80\x80",
        b"\x80\x80\x80",
        b"\xBD",
        b"\xBF\xBD",
    ];
    let is_taken = |rest: &[&[u8]]| {
        let xml = [start, &rest.concat()].concat();
        import(&xml, &mut [0; 0]).is_err_and(|refusal| refusal.number == 21)
    };
    let item_end = &xml_of(&[""])[xml_of::<&str>(&[]).len() - 21 + 6..];
    // The rest of the markup or of an entity, or the rest of a character and of its item.
    (0..=whole.len()).any(|from| is_taken(&[&whole[from..]]))
        || characters.iter().any(|rest| is_taken(&[rest, item_end]))
}

#[test]
fn every_character_goes_both_ways_or_is_refused() {
    let every: Vec<char> = ('\0'..=char::MAX).collect();
    for characters in every.chunks(1000) {
        let bad = |it: &char| *it < ' ' || *it == '\u{FFFE}' || *it == '\u{FFFF}';
        let (refused, lawful): (Vec<char>, Vec<char>) = characters.iter().partition(|it| bad(it));
        let texts = [lawful.into_iter().collect::<String>()];
        let (xml, file) = (xml_of(&texts), file_of(&texts));
        let (mut words, mut out) = ([0; 2 * WORDS_PER_ROW], vec![0; ROOM]);
        assert_eq!(export(&file, &[], &mut words, &mut out), Ok(xml.len()));
        assert!(out[..xml.len()] == xml);
        assert_eq!(import(&xml, &mut out), Ok(file.len()));
        assert!(out[..file.len()] == file);
        for character in refused {
            let texts = [character];
            let file = file_of(&texts.map(String::from));
            let answer = export(&file, &[], &mut words, &mut out);
            assert_eq!(answer.map_err(|it| (it.number, it.place)), Err((63, 1)));
            // The last byte of the character is one that no export has there.
            let xml = xml_of(&texts.map(String::from));
            let place = 79 + character.len_utf8() - 1;
            let answer = import(&xml, &mut out);
            assert_eq!(answer.map_err(|it| (it.number, it.place)), Err((64, place)));
        }
    }
}

#[test]
fn equal_seeds_give_equal_cases() {
    for seed in 0..100 {
        let (one, other) = (exports::case(seed), exports::case(seed));
        assert_eq!((one.bytes, one.known), (other.bytes, other.known));
        let (one, other) = (imports::case(seed), imports::case(seed));
        assert_eq!((one.xml, one.known), (other.xml, other.known));
    }
}
