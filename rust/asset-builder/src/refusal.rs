//! Refusals for people and for programs.

use crate::json::bytes_of_no_text;
use crate::names::{is_printable, plain_lines};
use crate::terminal::Paint;
use serde::Serialize;
use xnb::pack::{explain, PackRefused};
use xnb::Refusal::NoRowLeft;
use xnb::{Explanation, Loader, NameLine, Place, Refused, ShownName, MOST_ROWS};

/// The bytes on a line of a dump.
const LINE: usize = 16;

/// A refusal with all that is known of it.
#[derive(Serialize)]
pub struct Told<'f> {
    number: u32,
    place: u64,
    rule: &'static str,
    /// The value found and the limit.
    found: Option<String>,
    reader: Option<Reader<'f>>,
    #[serde(skip)]
    name: Option<ShownName<'f>>,
    /// The bytes around the place.
    around: Option<Dump<'f>>,
}

#[derive(Serialize)]
struct Reader<'f> {
    number: usize,
    first: usize,
    #[serde(serialize_with = "as_text")]
    name: &'f [u8],
    #[serde(rename = "nameBytes", skip_serializing_if = "Option::is_none")]
    name_bytes: Option<String>,
    /// Where in the name it is wrong, counted from its first byte.
    #[serde(skip_serializing_if = "Option::is_none")]
    offset: Option<usize>,
}

/// The bytes around the place.
#[derive(Serialize)]
struct Dump<'f> {
    first: usize,
    #[serde(rename = "hex", serialize_with = "as_hex")]
    bytes: &'f [u8],
}

impl<'f> Told<'f> {
    /// A refusal at a byte of an input.
    pub fn at_byte(input: &'f [u8], number: u32, place: u64, rule: &'static str) -> Told<'f> {
        Told {
            number,
            place,
            rule,
            found: None,
            reader: None,
            name: None,
            around: Dump::around(input, place),
        }
    }

    /// The refusal of a file by this loader with room for so many rows.
    pub fn of_file(loader: Loader, file: &'f [u8], refused: Refused, room: usize) -> Told<'f> {
        let Refused { refusal, place } = refused;
        let mut told = Told::at_byte(file, refusal.number(), u64::from(place), refusal.rule());
        if let Some(explanation) = loader.explain(file, refused, room) {
            told.reader = Reader::of(&explanation);
            told.name = explanation.name();
            told.found = Some(explanation.found);
        }
        if let (NoRowLeft, Some(found)) = (refusal, &mut told.found) {
            if room < MOST_ROWS {
                *found += &format!("; --rows N gives more, up to {MOST_ROWS}");
            }
        }
        if refusal.place() != Place::Byte {
            told.around = None;
        }
        told
    }

    /// The same with what was found.
    pub fn with_found(self, found: String) -> Told<'f> {
        Told {
            found: Some(found),
            ..self
        }
    }

    /// The same where the place is no byte of the input.
    pub fn without_bytes(self) -> Told<'f> {
        Told {
            around: None,
            ..self
        }
    }

    /// The refusal of a lookup in a row, and what was found there.
    pub fn of_row(refused: Refused, found: String) -> Told<'f> {
        let Refused { refusal, place } = refused;
        let told = Told::at_byte(&[], refusal.number(), u64::from(place), refusal.rule());
        told.with_found(found).without_bytes()
    }

    /// The refusal of a pack.
    pub fn of_pack(pack: &'f [u8], refused: PackRefused, marked: bool) -> Told<'f> {
        let PackRefused { refusal, place } = refused;
        let mut told = Told::at_byte(pack, refusal.number(), place, refused.rule());
        told.found = explain(pack, refused, marked);
        if refusal.place() != Place::Byte {
            told.around = None;
        }
        told
    }

    pub fn number(&self) -> u32 {
        self.number
    }

    pub fn place(&self) -> u64 {
        self.place
    }

    pub fn rule(&self) -> &'static str {
        self.rule
    }

    /// Whether its place is a byte of the input, or its end.
    pub fn is_at_byte(&self) -> bool {
        self.around.is_some()
    }

    /// The first line, plain and without its end.
    pub fn head(&self) -> String {
        self.line(Paint::none()).trim_end().to_string()
    }

    /// The lines behind the first, plain.
    pub fn body(&self) -> String {
        self.other_lines(Paint::none())
    }

    /// The first line: `refused 7 at 6: the rule`.
    fn line(&self, paint: Paint) -> String {
        let Told {
            number,
            place,
            rule,
            ..
        } = self;
        let refused = paint.bad(&format!("refused {number} at {place}"));
        format!("{refused}: {rule}\n")
    }

    /// Every line.
    pub fn lines(&self, paint: Paint) -> String {
        self.line(paint) + &self.other_lines(paint)
    }

    /// Every line behind the first; a name with a mark in it comes before what is found there.
    fn other_lines(&self, paint: Paint) -> String {
        let found = self
            .found
            .iter()
            .map(|it| format!("  {}\n", plain_lines(it)));
        let found: String = found.collect();
        let name = self.name_lines(paint);
        let marked = self.reader.as_ref().is_some_and(|it| it.offset.is_some());
        let mut out = if marked { name + &found } else { found + &name };
        if let Some(around) = &self.around {
            out += &around.lines(self.place as usize, paint);
        }
        out
    }

    /// The reader's name, with a mark below what is wrong in it.
    fn name_lines(&self, paint: Paint) -> String {
        let lines = self.name.iter().flat_map(ShownName::lines);
        let shown = lines.map(|line| match line {
            NameLine::Text(text) => format!("  {text}\n"),
            NameLine::Mark(mark) => {
                let marks = mark.trim_start();
                let indent = mark.len() - marks.len();
                format!("  {:indent$}{}\n", "", paint.bad(marks))
            }
        });
        shown.collect()
    }
}

impl<'f> Reader<'f> {
    fn of(explanation: &Explanation<'f>) -> Option<Reader<'f>> {
        let reader = explanation.reader?;
        Some(Reader {
            number: reader.number,
            first: reader.first,
            name: reader.bytes,
            name_bytes: bytes_of_no_text(reader.bytes),
            offset: explanation.mark.as_ref().map(|mark| mark.start),
        })
    }
}

impl<'f> Dump<'f> {
    /// The line with the place and those beside it; nothing if the place is behind the end.
    fn around(input: &'f [u8], place: u64) -> Option<Dump<'f>> {
        let place = usize::try_from(place)
            .ok()
            .filter(|it| *it <= input.len())?;
        let line = place - place % LINE;
        let first = line.saturating_sub(LINE);
        let end = input.len().min(line + 2 * LINE);
        Some(Dump {
            first,
            bytes: &input[first..end],
        })
    }

    /// The bytes in hexadecimal and as ASCII, with a mark below the one at the place.
    fn lines(&self, place: usize, paint: Paint) -> String {
        let mut out = String::new();
        let end = self.first + self.bytes.len();
        for start in (self.first..end.max(place + 1)).step_by(LINE) {
            let bytes = &self.bytes[start - self.first..];
            let bytes = &bytes[..bytes.len().min(LINE)];
            let hex: String = bytes.iter().map(|byte| format!("{byte:02X} ")).collect();
            let text: String = bytes.iter().map(|byte| ascii(*byte)).collect();
            let line = format!("  {start:08X}  {hex:48} {text}");
            out += line.trim_end();
            out += "\n";
            if (start..start + LINE).contains(&place) {
                let column = place - start;
                let (before, between) = (12 + 3 * column, 47 - 2 * column);
                let (byte, letter) = (paint.bad("^^"), paint.bad("^"));
                let ends = if place == end { " the end" } else { "" };
                out += &format!("{:before$}{byte}{:between$}{letter}{ends}\n", "", "");
            }
        }
        out
    }
}

/// A byte as a character, if it is a plain one, and in hexadecimal.
pub fn shown_byte(byte: u8) -> String {
    let shown = byte.is_ascii() && is_printable(char::from(byte));
    match shown {
        true => format!("'{}' ({byte:02X})", char::from(byte)),
        false => format!("{byte:02X}"),
    }
}

fn ascii(byte: u8) -> char {
    let shown = byte.is_ascii() && is_printable(char::from(byte));
    if shown {
        char::from(byte)
    } else {
        '.'
    }
}

fn as_text<S: serde::Serializer>(bytes: &[u8], out: S) -> Result<S::Ok, S::Error> {
    out.serialize_str(&String::from_utf8_lossy(bytes))
}

fn as_hex<S: serde::Serializer>(bytes: &[u8], out: S) -> Result<S::Ok, S::Error> {
    let hex: Vec<String> = bytes.iter().map(|byte| format!("{byte:02X}")).collect();
    out.serialize_str(&hex.join(" "))
}
