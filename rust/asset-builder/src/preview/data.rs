//! What the script of a page gets of a file: the words of its rows as the library left them, what each is called and
//! holds, and the bytes.

use super::markup::{counted, start_of, write_base64};
use crate::fields::{fields, Field};
use crate::names::is_printable;
use crate::values::value;
use serde::ser::{Serialize, SerializeSeq};
use serde_json::ser::{Formatter, Serializer};
use std::collections::BTreeMap;
use std::io::{self, Write};
use xnb::{Table, WORDS_PER_ROW};

/// So many bytes of a file are shown.
pub const MOST_BYTES: usize = 1 << 20;
/// So many characters of a value are shown.
const MOST_CHARACTERS: usize = 2_000;

/// A row: its words, what it is to the value above it, its value, what that means, and how many bytes it pads.
struct Shown<'t> {
    words: &'t [u32],
    texts: [Option<String>; 3],
    padding: usize,
}

/// All in one list, the words first.
impl Serialize for Shown<'_> {
    fn serialize<S: serde::Serializer>(&self, out: S) -> Result<S::Ok, S::Error> {
        let mut list = out.serialize_seq(None)?;
        for word in self.words {
            list.serialize_element(word)?;
        }
        for text in &self.texts {
            list.serialize_element(text)?;
        }
        list.serialize_element(&self.padding)?;
        list.end()
    }
}

/// Writes the data of a file; of one that is refused, its bytes and the place to light.
pub fn write(
    out: &mut dyn Write,
    file: &[u8],
    table: Option<&Table>,
    lit: Option<u64>,
) -> io::Result<()> {
    write!(
        out,
        "<script type=\"application/json\" class=\"data\">{{\"length\":{},\"kinds\":",
        file.len()
    )?;
    match table {
        Some(table) => write_rows(out, table)?,
        None => write!(out, "{{}},\"readers\":[],\"rows\":[]")?,
    }
    if let Some(place) = lit {
        write!(out, ",\"lit\":[{place},1]")?;
    }
    write!(out, ",\"bytes\":\"")?;
    write_base64(out, &file[..file.len().min(MOST_BYTES)])?;
    writeln!(out, "\"}}</script>")
}

fn write_rows(out: &mut dyn Write, table: &Table) -> io::Result<()> {
    let kinds: BTreeMap<u32, String> = table
        .rows()
        .map(|row| (row.kind.number(), row.kind.to_string()))
        .collect();
    write_json(out, &kinds)?;
    let readers: Vec<&str> = table.readers().map(|reader| reader.name).collect();
    write!(out, ",\"readers\":")?;
    write_json(out, &readers)?;
    write!(out, ",\"rows\":[")?;
    let words = table.words().chunks_exact(WORDS_PER_ROW);
    for ((row, words), field) in table.rows().zip(words).zip(names(table)) {
        let separator = if row.number == 0 { "\n" } else { ",\n" };
        write!(out, "{separator}")?;
        let (value, cut) = shown_value(table, row.number);
        let note = [field.meaning.map(|it| format!("({it})")), cut];
        let note: Vec<String> = note.into_iter().flatten().collect();
        let note = (!note.is_empty()).then(|| note.join(" "));
        let shown = Shown {
            words,
            texts: [field.name, value, note],
            padding: table.row_padding(row.number).expect("a loaded row"),
        };
        write_json(out, &shown)?;
    }
    write!(out, "]")
}

/// The value of a row as the command `tree` prints it, and what is said where it is cut.
fn shown_value(table: &Table, number: u32) -> (Option<String>, Option<String>) {
    let value = value(table, number).to_string();
    if value.is_empty() {
        return (None, None);
    }
    let (start, is_cut) = start_of(&value, MOST_CHARACTERS);
    let cut = is_cut.then(|| {
        let bytes = table.value_bytes(number).map_or(0, <[u8]>::len);
        format!(
            "… cut here, the text has {}",
            counted(bytes, "byte", "bytes")
        )
    });
    (Some(start.to_string()), cut)
}

/// What each row is to the value above it, in file order.
fn names<'t>(table: &'t Table) -> impl Iterator<Item = Field> + 't {
    type Below<'t> = (u32, Box<dyn Iterator<Item = Field> + 't>);
    // The values that the next row may belong to, each with the row behind it and the names that are left.
    let mut above: Vec<Below<'t>> = Vec::new();
    let mut objects = 0;
    table.rows().map(move |row| {
        while above.last().is_some_and(|(end, _)| *end <= row.number) {
            above.pop();
        }
        let field = match above.last_mut() {
            Some((_, names)) => names.next().unwrap_or_default(),
            None => {
                objects += 1;
                match objects - 1 {
                    0 => Field::named("primary"),
                    shared => Field::named(format_args!("shared {shared}")),
                }
            }
        };
        if row.children > 0 {
            let end = row.number + row.rows as u32;
            above.push((end, fields(table, row.number, row.kind)));
        }
        field
    })
}

/// JSON that ends no script and turns no line.
pub fn write_json(out: &mut dyn Write, value: &impl Serialize) -> io::Result<()> {
    let mut serializer = Serializer::with_formatter(out, InScript);
    Ok(value.serialize(&mut serializer)?)
}

struct InScript;

impl Formatter for InScript {
    fn write_string_fragment<W: ?Sized + Write>(
        &mut self,
        out: &mut W,
        text: &str,
    ) -> io::Result<()> {
        for character in text.chars() {
            let mut units = [0; 2];
            if is_printable(character) && !matches!(character, '<' | '>' | '&') {
                write!(out, "{character}")?;
                continue;
            }
            for unit in character.encode_utf16(&mut units) {
                write!(out, "\\u{unit:04x}")?;
            }
        }
        Ok(())
    }
}

#[cfg(test)]
mod tests {
    use super::*;

    #[test]
    fn json_ends_no_script() {
        let text = "</script><!--<script>&\u{2028}\u{202E}สถานี";
        let mut out = Vec::new();
        write_json(&mut out, &text).expect("a vector takes all");
        let json = String::from_utf8(out).expect("JSON is text");
        assert!(
            !json.contains(['<', '>', '&', '\u{2028}', '\u{202E}']),
            "{json}"
        );
        assert_eq!(serde_json::from_str::<String>(&json).expect("JSON"), text);
    }
}
