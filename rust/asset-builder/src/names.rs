//! Names and texts from outside, printed so that no control byte reaches a terminal.

use std::ffi::OsStr;
use std::fmt::Write;
use std::os::unix::ffi::OsStrExt;

/// A name as it is, or in quotes with escapes if a terminal might not show it as it is.
pub fn shown(name: impl AsRef<OsStr>) -> String {
    let bytes = name.as_ref().as_bytes();
    match std::str::from_utf8(bytes) {
        Ok(text) if text.chars().all(is_printable) && !text.starts_with('"') => text.to_string(),
        _ => format!("\"{}\"", escaped(bytes)),
    }
}

/// Bytes as text, with an escape for each that a terminal might not show as it is.
pub fn escaped(bytes: &[u8]) -> String {
    let mut out = String::new();
    for chunk in bytes.utf8_chunks() {
        for character in chunk.valid().chars() {
            match character {
                '"' | '\\' => out.extend(['\\', character]),
                _ => push_plain(&mut out, character),
            }
        }
        for byte in chunk.invalid() {
            let _ = write!(out, "\\x{byte:02X}");
        }
    }
    out
}

/// Text in quotes: as it is, with an escape for the quote, for `\\`, and for what would not be shown in its
/// place. Marks that join a letter, and signs that join letters, stay.
pub fn shown_text(text: &str, quote: char) -> String {
    let mut out = String::new();
    for character in text.chars() {
        match character {
            '\\' => out.push_str("\\\\"),
            _ if character == quote => out.extend(['\\', character]),
            _ if moves(character) => push_escaped(&mut out, character),
            _ => out.push(character),
        }
    }
    out
}

/// Whether a terminal does something else with the character than to show it in its place: controls, those of a text's
/// direction, and ends of lines.
fn moves(character: char) -> bool {
    matches!(character,
        '\u{61C}' | '\u{200E}' | '\u{200F}' | '\u{2028}'..='\u{202E}' | '\u{2066}'..='\u{2069}')
        || character.is_control()
}

/// Lines of text, with an escape for each other control character.
pub fn plain_lines(text: &str) -> String {
    let mut out = String::new();
    for character in text.chars() {
        match character {
            '\n' => out.push('\n'),
            _ => push_plain(&mut out, character),
        }
    }
    out
}

/// One character, or its escape.
fn push_plain(out: &mut String, character: char) {
    match is_printable(character) {
        true => out.push(character),
        false => push_escaped(out, character),
    }
}

fn push_escaped(out: &mut String, character: char) {
    match character {
        '\0'..='\x7F' => out.extend(character.escape_default()),
        _ => out.extend(character.escape_unicode()),
    }
}

/// Whether a terminal shows the character and does nothing else.
pub fn is_printable(character: char) -> bool {
    match character {
        ' '..='~' => true,
        '\0'..='\x7F' => false,
        _ => {
            // A mark that joins the letter before it is shown, so a letter goes before.
            let text = String::from_iter(['a', character]);
            text.escape_debug().eq(text.chars())
        }
    }
}

#[cfg(test)]
mod tests {
    use super::*;

    #[test]
    fn names_are_printed_as_they_are_or_escaped() {
        assert_eq!(shown("a b\\c'ü.xnb"), "a b\\c'ü.xnb");
        assert_eq!(shown("a\n\x1B[2Jb\\"), r#""a\n\u{1b}[2Jb\\""#);
        assert_eq!(shown("cafe\u{301}.xnb"), "cafe\u{301}.xnb");
        assert_eq!(shown("\"a\""), r#""\"a\"""#);
        assert_eq!(shown(OsStr::from_bytes(b"\xFFa\x7F")), r#""\xFFa\u{7f}""#);
        assert_eq!(shown("\u{9B}\u{202E}"), r#""\u{9b}\u{202e}""#);
        assert_eq!(plain_lines("a\r\n\tb\n"), "a\\r\n\\tb\n");
    }

    #[test]
    fn texts_are_shown_as_they_are_written() {
        let texts = [
            "สถานี ถัดไป",
            "שָׁלוֹם",
            "हिन्दी",
            "cafe\u{301}",
            "\u{301}",
            "می\u{200C}خواهم",
            "👩\u{200D}🚒",
            "\u{E000}\u{378}'",
        ];
        for text in texts {
            assert_eq!(shown_text(text, '"'), text);
        }
        let moving = "a\"\\\n\t\x1B\u{85}\u{9B}\u{2028}\u{202E}\u{2066}\u{61C}";
        let shown = r#"a\"\\\n\t\u{1b}\u{85}\u{9b}\u{2028}\u{202e}\u{2066}\u{61c}"#;
        assert_eq!(shown_text(moving, '"'), shown);
    }
}
