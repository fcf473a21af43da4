//! Words and numbers as a page has them: no byte of a file becomes markup.

use crate::names::shown_text;
use std::borrow::Cow;
use std::io::{self, Write};

/// Text for any place of a page, in an element or in an attribute.
pub fn safe(text: &str) -> Cow<'_, str> {
    html_escape::encode_safe(text)
}

/// A text of a file in quotes; what would turn or break a line is escaped.
pub fn quoted(text: &str) -> String {
    format!("“{}”", safe(&shown_text(text, '”')))
}

/// A text of a file that may be null.
pub fn quoted_or_null(text: Option<&str>) -> String {
    text.map_or("null".to_string(), quoted)
}

/// The first characters of a text, and whether more follow.
pub fn start_of(text: &str, most: usize) -> (&str, bool) {
    match text.char_indices().nth(most) {
        Some((end, _)) => (&text[..end], true),
        None => (text, false),
    }
}

/// A number in groups of three digits.
pub fn grouped(number: usize) -> String {
    let digits = number.to_string();
    let mut out = String::new();
    for (place, digit) in digits.chars().enumerate() {
        if place > 0 && (digits.len() - place).is_multiple_of(3) {
            out.push(',');
        }
        out.push(digit);
    }
    out
}

/// So many of a thing.
pub fn counted(number: usize, one: &str, many: &str) -> String {
    format!(
        "{} {}",
        grouped(number),
        if number == 1 { one } else { many }
    )
}

/// A number of a drawing, short and without an exponent.
pub fn coordinate(number: f64) -> String {
    let text = format!("{number:.2}");
    let text = text.trim_end_matches('0').trim_end_matches('.');
    match text {
        "-0" => "0".to_string(),
        _ => text.to_string(),
    }
}

pub fn write_base64(out: &mut dyn Write, bytes: &[u8]) -> io::Result<()> {
    // Pieces of whole groups of three bytes, so that only the last is padded.
    for piece in bytes.chunks(3 << 14) {
        out.write_all(base64::encode(piece).as_bytes())?;
    }
    Ok(())
}

/// Says where something is cut.
pub fn write_cut(out: &mut dyn Write, shown: usize, all: usize, many: &str) -> io::Result<()> {
    if shown < all {
        let (shown, all) = (grouped(shown), grouped(all));
        writeln!(
            out,
            "<p class=\"cut\">Cut here: {shown} of {all} {many} are shown.</p>"
        )?;
    }
    Ok(())
}

#[cfg(test)]
mod tests {
    use super::*;

    #[test]
    fn no_text_becomes_markup() {
        let text = "</script><b title=\"x\" class='y'>&amp;";
        let shown = safe(text);
        assert!(!shown.contains(['<', '>', '"', '\'']), "{shown}");
        assert_eq!(html_escape::decode_html_entities(&shown), text);
        assert_eq!(quoted("\u{202E}สถานี\n"), "“\\u{202e}สถานี\\n”");
    }

    #[test]
    fn numbers_are_grouped_and_short() {
        let grouped: Vec<String> = [0, 999, 1_000, 65_536, 16_777_216]
            .map(grouped)
            .into_iter()
            .collect();
        assert_eq!(grouped, ["0", "999", "1,000", "65,536", "16,777,216"]);
        let written = [-0.001, 1.5, 100.0, -2.345].map(coordinate);
        assert_eq!(written, ["0", "1.5", "100", "-2.35"].map(String::from));
        assert_eq!(start_of("สถานี", 2), ("สถ", true));
        assert_eq!(start_of("สถ", 2), ("สถ", false));
    }
}
