//! Text lists to and from XML: Req 13 of document 02.
//!
//! The XML is the declaration and the start of the list, `<Item>`, text, `</Item>` for each text, and the end of the
//! list, "with nothing between".

use crate::header::LONGEST_FILE;
use crate::kinds::{ARRAY, NULL, STRING};
use crate::load::{read_file, Read};
use crate::lookup::text_in;
use crate::refusal::{
    demand, refuse, Refusal, NO_TEXT_LIST, NO_XML_CHARACTER, NULL_TEXT, OTHER_XML,
    OUTPUT_TOO_SMALL, TOO_LARGE,
};
use crate::row::Row;
use crate::seven::shortest_seven;
use crate::table::{fill, room, Shape};
use crate::types::Type;
use std::ops::RangeInclusive;

const START: &[u8] =
    br#"<?xml version="1.0" encoding="utf-8"?><XnaContent><Asset Type="string[]">"#;
const ITEM: &[u8] = b"<Item>";
const ITEM_END: &[u8] = b"</Item>";
const END: &[u8] = b"</Asset></XnaContent>";

/// Characters that are "written as XML 1.0's named entities".
const ENTITIES: [(u8, &[u8]); 4] = [
    (b'&', b"&amp;"),
    (b'<', b"&lt;"),
    (b'>', b"&gt;"),
    (b'"', b"&quot;"),
];

/// A table has a row for the array and one for each text.
const MOST_TEXTS: usize = 65_535;

/// Writes the XML of a file's text list to the start of the output and answers its length.
///
/// The words are left as a load of the file leaves them, but all zero after any refusal; the output is untouched
/// after a refusal, and past the XML.
pub fn export(
    file: &[u8],
    enums: &[u8],
    words: &mut [u32],
    out: &mut [u8],
) -> Result<usize, Refusal> {
    let answer = read_file(file, enums, room(words));
    words.fill(0);
    let read = answer?;
    let xml = xml_of(file, &read)?;
    put(&xml, out)?;
    fill(Shape::Rows, words, &read.rows);
    Ok(xml.len())
}

/// Writes the shortest file of the XML's texts to the start of the output and answers its length.
///
/// The output is untouched after a refusal, and past the file.
pub fn import(xml: &[u8], out: &mut [u8]) -> Result<usize, Refusal> {
    let texts = Parser { xml, at: 0 }.texts()?;
    let bytes: usize = texts.iter().map(Vec::len).sum();
    demand(
        texts.len() <= MOST_TEXTS && bytes <= LONGEST_FILE,
        TOO_LARGE,
        0,
    )?;
    let file = file_of(&texts);
    demand(file.len() <= LONGEST_FILE, TOO_LARGE, 0)?;
    put(&file, out)?;
    Ok(file.len())
}

/// Copies what was made to the start of the output, if there is room.
fn put(made: &[u8], out: &mut [u8]) -> Result<(), Refusal> {
    demand(made.len() <= out.len(), OUTPUT_TOO_SMALL, made.len())?;
    out[..made.len()].copy_from_slice(made);
    Ok(())
}

/// The XML of a text list; the first text that cannot be written decides between 62 and 63.
fn xml_of(file: &[u8], read: &Read) -> Result<Vec<u8>, Refusal> {
    let primary = &read.rows[0];
    demand(
        is_text_list(primary, read),
        NO_TEXT_LIST,
        primary.first as usize,
    )?;
    let mut xml = START.to_vec();
    for (number, row) in read.rows.iter().enumerate().skip(1) {
        demand(row.kind != NULL, NULL_TEXT, number)?;
        let text = text_of(file, row);
        demand(text.chars().all(may_stand), NO_XML_CHARACTER, number)?;
        xml.extend_from_slice(ITEM);
        escape(text, &mut xml);
        xml.extend_from_slice(ITEM_END);
    }
    xml.extend_from_slice(END);
    Ok(xml)
}

/// "A file whose primary object is an Array of String, with no shared objects".
fn is_text_list(primary: &Row, read: &Read) -> bool {
    let text_list = Type::of(ARRAY, vec![Type::plain(STRING)]);
    primary.kind == ARRAY
        && read.targets[primary.detail as usize - 1] == text_list
        && read.loaded.shared == 0
}

/// The text of an accepted String.
fn text_of<'f>(file: &'f [u8], row: &Row) -> &'f str {
    let first = row.first as usize;
    let part = &file[first..first + row.length as usize];
    let text = text_in(part).expect("an accepted text is whole");
    std::str::from_utf8(text).expect("an accepted text is UTF-8")
}

/// No "character below 20 hex or U+FFFE or U+FFFF".
fn may_stand(character: char) -> bool {
    character >= ' ' && character != '\u{FFFE}' && character != '\u{FFFF}'
}

fn escape(text: &str, xml: &mut Vec<u8>) {
    for byte in text.bytes() {
        match ENTITIES.iter().find(|(character, _)| *character == byte) {
            Some((_, entity)) => xml.extend_from_slice(entity),
            None => xml.push(byte),
        }
    }
}

/// "The shortest XNB file with two readers, ArrayReader of `System.String` then StringReader, platform `w`, flags 00."
fn file_of(texts: &[Vec<u8>]) -> Vec<u8> {
    let mut file = b"XNBw\x05\x00\0\0\0\0\x02".to_vec();
    for name in [
        "Microsoft.Xna.Framework.Content.ArrayReader`1[[System.String]]",
        "Microsoft.Xna.Framework.Content.StringReader",
    ] {
        file.extend(shortest_seven(name.len() as u32));
        file.extend_from_slice(name.as_bytes());
        file.extend_from_slice(&[0; 4]);
    }
    let (shared_count, array_id, text_id) = (0, 1, 2);
    file.extend_from_slice(&[shared_count, array_id]);
    file.extend_from_slice(&(texts.len() as u32).to_le_bytes());
    for text in texts {
        file.push(text_id);
        file.extend(shortest_seven(text.len() as u32));
        file.extend_from_slice(text);
    }
    let length = file.len() as u32;
    file[6..10].copy_from_slice(&length.to_le_bytes());
    file
}

/// Reads XML as the export writes it; 64 stands at the first byte that no export has there, or at the end.
struct Parser<'x> {
    xml: &'x [u8],
    at: usize,
}

impl Parser<'_> {
    /// All texts, up to the end of the XML.
    fn texts(mut self) -> Result<Vec<Vec<u8>>, Refusal> {
        self.fixed(START)?;
        let mut texts = Vec::new();
        // Both the next item and the end of the list begin with `<`.
        while self.xml.get(self.at..self.at + 2) != Some(&END[..2]) {
            self.fixed(ITEM)?;
            texts.push(self.text()?);
        }
        self.fixed(END)?;
        demand(self.at == self.xml.len(), OTHER_XML, self.at)?;
        Ok(texts)
    }

    /// The byte that stands here, if any.
    fn next(&self) -> Option<u8> {
        self.xml.get(self.at).copied()
    }

    /// Takes bytes that must stand here.
    fn fixed(&mut self, due: &[u8]) -> Result<(), Refusal> {
        for &byte in due {
            self.byte_in(byte..=byte)?;
        }
        Ok(())
    }

    fn byte_in(&mut self, due: RangeInclusive<u8>) -> Result<u8, Refusal> {
        match self.next() {
            Some(byte) if due.contains(&byte) => {
                self.at += 1;
                Ok(byte)
            }
            _ => refuse(OTHER_XML, self.at),
        }
    }

    /// Takes a text with the end of its item.
    fn text(&mut self) -> Result<Vec<u8>, Refusal> {
        let mut text = Vec::new();
        loop {
            match self.next() {
                Some(b'<') => break,
                Some(b'&') => text.push(self.entity()?),
                _ => self.character(&mut text)?,
            }
        }
        self.fixed(ITEM_END)?;
        Ok(text)
    }

    /// Takes an entity; no two of them have the same second byte.
    fn entity(&mut self) -> Result<u8, Refusal> {
        let letter = self.xml.get(self.at + 1).copied();
        let named = ENTITIES.iter().find(|(_, name)| letter == Some(name[1]));
        let Some((character, name)) = named else {
            return refuse(OTHER_XML, self.at + 1);
        };
        self.fixed(name)?;
        Ok(*character)
    }

    /// Takes a character that stands for itself.
    fn character(&mut self, text: &mut Vec<u8>) -> Result<(), Refusal> {
        let start = self.at;
        let lead = self.byte_in(0x20..=0xF4)?;
        let tail_bytes = match lead {
            b'>' | b'"' | 0x80..=0xC1 => return refuse(OTHER_XML, start),
            0x00..=0x7F => 0,
            0xC2..=0xDF => 1,
            0xE0..=0xEF => 2,
            0xF0..=0xFF => 3,
        };
        for _ in 0..tail_bytes {
            self.byte_in(tail_byte(&self.xml[start..self.at]))?;
        }
        text.extend_from_slice(&self.xml[start..self.at]);
        Ok(())
    }
}

/// The bytes that RFC 3629 lets follow these in a character, where EF BF begins neither U+FFFE nor U+FFFF.
fn tail_byte(before: &[u8]) -> RangeInclusive<u8> {
    match before {
        [0xE0] => 0xA0..=0xBF,
        [0xED] => 0x80..=0x9F,
        [0xF0] => 0x90..=0xBF,
        [0xF4] => 0x80..=0x8F,
        [0xEF, 0xBF] => 0x80..=0xBD,
        _ => 0x80..=0xBF,
    }
}
