//! XML to be imported.

use super::texts::{file_of, some_texts, xml_of};
use super::{refused, XmlKnown};
use crate::random::Random;

/// XML, and what every program must answer with room for it, if that is known without one.
#[derive(Clone, Debug)]
pub struct ImportCase {
    pub xml: Vec<u8>,
    pub known: Option<XmlKnown>,
}

/// The case of a seed: XML that an export can write, with one known fault, or damaged at random.
pub fn case(seed: u64) -> ImportCase {
    let random = &mut Random::new(seed);
    let texts = some_texts(random);
    match seed % 8 {
        0..=1 => lawful(&texts),
        2 => cut(random, &texts),
        3..=4 => with_a_wrong_byte(random, &texts),
        5 => with_a_bad_character(random, &texts),
        6 => at_an_end(random, &texts),
        _ => damaged(random, &texts),
    }
}

fn lawful(texts: &[String]) -> ImportCase {
    ImportCase {
        xml: xml_of(texts),
        known: Some(XmlKnown::Written(file_of(texts))),
    }
}

fn wrong(xml: Vec<u8>, place: usize) -> ImportCase {
    let known = refused(64, place);
    ImportCase { xml, known }
}

/// "Or its end if it stops short."
fn cut(random: &mut Random, texts: &[String]) -> ImportCase {
    let mut xml = xml_of(texts);
    // Often in the last texts or behind them.
    let late = xml.len() - 1 - random.below(xml.len().min(60));
    let any = random.below(xml.len());
    xml.truncate(random.pick(&[late, any]));
    let end = xml.len();
    wrong(xml, end)
}

/// A byte order mark before the XML, or something behind it.
fn at_an_end(random: &mut Random, texts: &[String]) -> ImportCase {
    let mut xml = xml_of(texts);
    if random.chance(20) {
        return wrong([b"\xEF\xBB\xBF", &xml[..]].concat(), 0);
    }
    let end = xml.len();
    let count = random.below(5);
    let any = random.bytes(1 + count);
    let more: [&[u8]; 6] = [b"\n", b" ", b"<", b"\0", b"</XnaContent>", &any];
    let more = random.pick(&more);
    xml.extend_from_slice(more);
    wrong(xml, end)
}

/// A part of XML: what may stand in place of its bytes depends on it.
#[derive(Clone, Copy, PartialEq, Eq)]
enum Part {
    Start,
    Item,
    /// One character that stands for itself.
    Character,
    Entity,
    ItemEnd,
    End,
}

/// The parts of the XML of some texts.
fn parts(texts: &[String]) -> Vec<(Part, Vec<u8>)> {
    let start = r#"<?xml version="1.0" encoding="utf-8"?><XnaContent><Asset Type="string[]">"#;
    let mut parts = vec![(Part::Start, start.into())];
    for text in texts {
        parts.push((Part::Item, b"<Item>".to_vec()));
        for character in text.chars() {
            let entity = match character {
                '&' => "&amp;",
                '<' => "&lt;",
                '>' => "&gt;",
                '"' => "&quot;",
                _ => "",
            };
            if entity.is_empty() {
                parts.push((Part::Character, character.to_string().into_bytes()));
            } else {
                parts.push((Part::Entity, entity.into()));
            }
        }
        parts.push((Part::ItemEnd, b"</Item>".to_vec()));
    }
    parts.push((Part::End, b"</Asset></XnaContent>".to_vec()));
    parts
}

/// The bytes of the parts.
fn joined(parts: &[(Part, Vec<u8>)]) -> Vec<u8> {
    parts.iter().flat_map(|(_, bytes)| bytes.clone()).collect()
}

/// A byte that no export has in its place, and anything behind it.
fn with_a_wrong_byte(random: &mut Random, texts: &[String]) -> ImportCase {
    let parts = parts(texts);
    let (number, place) = loop {
        let number = random.below(parts.len());
        let (part, bytes) = &parts[number];
        // Parts that are seldom, or among many characters.
        if *part != Part::Character || random.chance(20) {
            break (number, random.below(bytes.len()));
        }
    };
    let (part, bytes) = &parts[number];
    let byte = wrong_byte(random, *part, bytes, place);
    let fault = joined(&parts[..number]).len() + place;
    let mut xml = joined(&parts);
    xml[fault] = byte;
    anything_behind(random, &mut xml, fault + 1);
    wrong(xml, fault)
}

/// A byte that cannot stand at this place of a part.
fn wrong_byte(random: &mut Random, part: Part, bytes: &[u8], place: usize) -> u8 {
    loop {
        let (any, likely) = (random.byte(), random.pick(b"<>&\"'/;Ialgq \n"));
        let byte = random.pick(&[any, any, likely, bytes[place] ^ 0x20]);
        let lawful = match (part, place) {
            (Part::Character | Part::Entity | Part::ItemEnd, 0) => may_begin_text(byte),
            (Part::Character, _) => (0x80..=0xBF).contains(&byte),
            // Another entity may stand here.
            (Part::Entity, 1) => b"algq".contains(&byte),
            // Behind an item another item, or the end, may stand.
            (Part::Item | Part::End, 1) => b"/I".contains(&byte),
            _ => byte == bytes[place],
        };
        if !lawful {
            return byte;
        }
    }
}

/// Whether a character, an entity or the end of an item begins with this byte.
fn may_begin_text(byte: u8) -> bool {
    match byte {
        b'>' | b'"' => false,
        _ => (0x20..=0x7F).contains(&byte) || (0xC2..=0xF4).contains(&byte),
    }
}

/// Characters that no export writes, and the first of their bytes that none has there.
const BAD_CHARACTERS: [(&[u8], usize); 26] = [
    (b"\x80", 0),
    (b"\xC0\x80", 0),
    (b"\xC1\xBF", 0),
    (b"\xC2\x41", 1),
    (b"\xC2<", 1),
    (b"\xDF\xC0", 1),
    (b"\xE0\x9F\xBF", 1),
    (b"\xE0\xA0\x7F", 2),
    (b"\xE1\x80\xC0", 2),
    (b"\xED\xA0\x80", 1),
    (b"\xED\x9F\x7F", 2),
    (b"\xEF\xBF\xBE", 2),
    (b"\xEF\xBF\xBF", 2),
    (b"\xEF\xC0\x80", 1),
    (b"\xF0\x8F\xBF\xBF", 1),
    (b"\xF0\x90\x7F", 2),
    (b"\xF0\x90\x80<", 3),
    (b"\xF3\xBF\xBF\xC0", 3),
    (b"\xF4\x8F\xBF&", 3),
    (b"\xF4\x90\x80\x80", 1),
    (b"\xF5\x80\x80\x80", 0),
    (b"\xFF", 0),
    (b"\x1F", 0),
    (b"\0", 0),
    (b">", 0),
    (b"\"", 0),
];

/// A character that no export writes at any place of a text.
fn with_a_bad_character(random: &mut Random, texts: &[String]) -> ImportCase {
    let mut texts = texts.to_vec();
    texts.push("last".to_string());
    let parts = parts(&texts);
    let inside = [Part::Character, Part::Entity, Part::ItemEnd];
    let number = loop {
        let number = random.below(parts.len());
        if inside.contains(&parts[number].0) {
            break number;
        }
    };
    let (bytes, fault) = random.pick(&BAD_CHARACTERS);
    let mut xml = joined(&parts[..number]);
    let place = xml.len() + fault;
    xml.extend_from_slice(bytes);
    xml.extend(joined(&parts[number..]));
    anything_behind(random, &mut xml, place + 1);
    wrong(xml, place)
}

/// Leaves what stands from a place on, takes it away, or puts any bytes there.
fn anything_behind(random: &mut Random, xml: &mut Vec<u8>, place: usize) {
    match random.below(4) {
        0 => xml.truncate(place),
        1 => {
            xml.truncate(place);
            let count = random.below(9);
            xml.extend(random.bytes(count));
        }
        _ => {}
    }
}

/// Some bytes changed, taken out, put in or written twice.
fn damaged(random: &mut Random, texts: &[String]) -> ImportCase {
    let mut xml = xml_of(texts);
    for _ in 0..1 + random.below(3) {
        let place = random.below(xml.len() + 1);
        let end = (place + random.below(9)).min(xml.len());
        match random.below(4) {
            0 => {
                xml.drain(place..end);
            }
            1 => {
                let copy = xml[place..end].to_vec();
                xml.splice(end..end, copy);
            }
            2 => {
                let parts: [&[u8]; 6] = [b"<Item>", b"</Item>", b"&amp;", b"&", b"<", b"\xEF\xBF"];
                let part = random.pick(&parts);
                xml.splice(place..place, part.iter().copied());
            }
            _ => {
                if let Some(byte) = xml.get_mut(place) {
                    *byte = random.byte();
                }
            }
        }
    }
    ImportCase { xml, known: None }
}

/// A case with a name.
pub struct ImportLimit {
    pub name: String,
    pub case: ImportCase,
}

const MOST_TEXTS: usize = 65_535;
const LONGEST_FILE: usize = 16_777_216;
/// The bytes of a file before its first text.
const BEFORE_TEXTS: usize = 133;

/// 9 at, below and past both limits, 64 before it, and texts whose count gets a byte more.
pub fn limits() -> Vec<ImportLimit> {
    let mut limits = Vec::new();
    for count in [MOST_TEXTS - 1, MOST_TEXTS, MOST_TEXTS + 1, MOST_TEXTS + 2] {
        let texts = vec![""; count];
        limits.extend(around(
            &format!("{count} texts"),
            &texts,
            count > MOST_TEXTS,
        ));
    }
    for length in [0, 1, 127, 128, 16_383, 16_384, 2_097_151, 2_097_152] {
        let texts = ["x".repeat(length)];
        limits.extend(around(&format!("a text of {length} bytes"), &texts, false));
    }
    for excess in [0, 1] {
        // Its type id and the four bytes of its count stand before the text.
        let length = LONGEST_FILE - BEFORE_TEXTS - 5 + excess;
        let entities = 100_000;
        let text = "\"".repeat(entities) + &"x".repeat(length - entities);
        let name = format!("one text, {excess} bytes too long");
        limits.extend(around(&name, &[text], excess > 0));
        // As many texts as there may be, with three bytes before each.
        let mut texts = vec!["y".repeat(253); MOST_TEXTS];
        let used = BEFORE_TEXTS + MOST_TEXTS * 256;
        texts[0] += &"z".repeat(LONGEST_FILE - used + excess);
        let name = format!("{MOST_TEXTS} texts, {excess} bytes too long");
        limits.extend(around(&name, &texts, excess > 0));
    }
    limits
}

/// The XML of texts, the same cut before its last byte, and with a byte behind its end.
fn around<T: AsRef<str>>(name: &str, texts: &[T], too_large: bool) -> Vec<ImportLimit> {
    let xml = xml_of(texts);
    let known = if too_large {
        refused(9, 0)
    } else {
        Some(XmlKnown::Written(file_of(texts)))
    };
    let last = xml.len() - 1;
    let shorter = wrong(xml[..last].to_vec(), last);
    let longer = wrong([&xml[..], b"\n"].concat(), xml.len());
    let named = |what: &str, case| ImportLimit {
        name: format!("{name}{what}"),
        case,
    };
    vec![
        named("", ImportCase { xml, known }),
        named(", the last byte missing", shorter),
        named(", a newline behind the end", longer),
    ]
}
