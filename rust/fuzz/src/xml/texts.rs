//! Random texts, their XML and their file.

use crate::random::Random;
use corpus::readers::{array_of, STRING};
use corpus::values::{array, bound_object, file, object, text};
use corpus::writer::write;

/// Characters at bounds that may stand in XML, those with entities among them.
const EDGES: [char; 28] = [
    '&',
    '<',
    '>',
    '"',
    '\'',
    ';',
    ']',
    ' ',
    '~',
    '\u{7F}',
    '\u{80}',
    '\u{9F}',
    '\u{7FF}',
    '\u{800}',
    '\u{FFF}',
    '\u{1000}',
    '\u{D7FF}',
    '\u{E000}',
    '\u{FDD0}',
    '\u{FEFF}',
    '\u{FFBF}',
    '\u{FFC0}',
    '\u{FFFD}',
    '\u{10000}',
    '\u{1FFFE}',
    '\u{3FFFF}',
    '\u{40000}',
    '\u{10FFFF}',
];

/// Some texts that can be written, mostly few and short.
pub fn some_texts(random: &mut Random) -> Vec<String> {
    let count = match random.below(20) {
        0..=1 => 0,
        2..=16 => 1 + random.below(5),
        17..=18 => 1 + random.below(40),
        _ => 200 + random.below(200),
    };
    (0..count).map(|_| some_text(random)).collect()
}

/// A text of plain letters, of any characters, or of entities.
pub fn some_text(random: &mut Random) -> String {
    let length = random.pick(&[0, 1, 1, 2, 3, 8, 20, 130]);
    let edges = random.pick(&[0, 10, 50, 100]);
    let character = |random: &mut Random| match random.below(100) {
        edge if edge < edges => random.pick(&EDGES),
        any if any % 10 == 0 => some_character(random),
        _ => random.pick(&['a', 'b', 'i', 'I', 't', 'e', 'm', ' ', '/', '0']),
    };
    (0..length).map(|_| character(random)).collect()
}

/// Any character that can be written.
fn some_character(random: &mut Random) -> char {
    loop {
        let most = random.pick(&[0x7F, 0x7FF, 0xFFFF, 0x10_FFFF]);
        let character = char::from_u32(random.between(0x20, most));
        match character {
            Some('\u{FFFE}' | '\u{FFFF}') | None => {}
            Some(character) => return character,
        }
    }
}

/// "A character below 20 hex or U+FFFE or U+FFFF".
pub fn bad_character(random: &mut Random) -> char {
    match random.below(3) {
        0 => random.pick(&['\u{FFFE}', '\u{FFFF}']),
        1 => random.pick(&['\0', '\t', '\n', '\r', '\u{1F}']),
        _ => random.between(0, 0x1F) as u8 as char,
    }
}

/// The XML of texts, as the request spells it.
pub fn xml_of<T: AsRef<str>>(texts: &[T]) -> Vec<u8> {
    let mut xml =
        r#"<?xml version="1.0" encoding="utf-8"?><XnaContent><Asset Type="string[]">"#.to_string();
    for text in texts {
        let text = text.as_ref().replace('&', "&amp;").replace('<', "&lt;");
        let text = text.replace('>', "&gt;").replace('"', "&quot;");
        xml += &format!("<Item>{text}</Item>");
    }
    xml += "</Asset></XnaContent>";
    xml.into_bytes()
}

/// The shortest file of texts with two readers.
pub fn file_of<T: AsRef<str>>(texts: &[T]) -> Vec<u8> {
    let readers = [array_of("System.String"), STRING.to_string()];
    let texts = texts.iter().map(|it| bound_object(2, text(it.as_ref())));
    let file = file(&readers, object(1, array(texts.collect())), vec![]);
    write(&file).bytes
}
