//! Names in lines for people.

use std::fmt::{self, Display, Formatter};
use std::ops::Range;

/// The columns of a line: with an indent of two and a mark behind the last, a terminal of 80 does not break it.
const WIDTH: usize = 76;
/// No line past this one is shown if the mark is not there.
const MOST_LINES: usize = 16;

/// A reader's name in lines for people, with a mark below the part that is wrong.
///
/// A name that is wider than a line goes on in the next, and the mark is below the line that holds the wrong part.
/// No control byte is shown as it is: a byte below 20 or above 7E hex is shown as `\x1B`, and a backslash as `\\`.
/// Of a name that takes more than 16 lines, those behind the mark are left out.
#[derive(Clone, Debug, PartialEq, Eq)]
pub struct ShownName<'f> {
    bytes: &'f [u8],
    mark: Option<Range<usize>>,
}

/// A line of a name.
#[derive(Clone, Debug, PartialEq, Eq)]
pub enum NameLine {
    /// A part of the name, or `...` for the rest.
    Text(String),
    /// Spaces, and a `^` below each column that is marked.
    Mark(String),
}

impl<'f> ShownName<'f> {
    pub(super) fn new(bytes: &'f [u8], mark: Option<Range<usize>>) -> ShownName<'f> {
        ShownName { bytes, mark }
    }

    /// Its lines, without newlines.
    pub fn lines(&self) -> Vec<NameLine> {
        let mut lines = Vec::new();
        let (mut text, mut mark) = (String::new(), String::new());
        for (place, byte) in self.bytes.iter().enumerate() {
            let shown = shown(*byte);
            if text.len() + shown.len() > WIDTH {
                push_line(&mut lines, &mut text, &mut mark);
            }
            if self.marks(place) {
                mark_columns(&mut mark, text.len(), shown.len());
            }
            text += &shown;
        }
        if self.mark.as_ref().is_some_and(Range::is_empty) {
            mark_columns(&mut mark, text.len(), 1);
        }
        push_line(&mut lines, &mut text, &mut mark);
        cut(&mut lines);
        lines
    }

    fn marks(&self, place: usize) -> bool {
        self.mark.as_ref().is_some_and(|mark| mark.contains(&place))
    }
}

impl Display for ShownName<'_> {
    fn fmt(&self, out: &mut Formatter) -> fmt::Result {
        for (index, line) in self.lines().iter().enumerate() {
            let (NameLine::Text(line) | NameLine::Mark(line)) = line;
            let end = if index > 0 { "\n" } else { "" };
            write!(out, "{end}{line}")?;
        }
        Ok(())
    }
}

/// A byte of a name as a terminal shows it.
fn shown(byte: u8) -> String {
    match byte {
        b'\\' => r"\\".to_string(),
        b' '..=b'~' => char::from(byte).to_string(),
        _ => format!(r"\x{byte:02X}"),
    }
}

/// Marks so many columns from this one on.
fn mark_columns(mark: &mut String, column: usize, count: usize) {
    *mark += &" ".repeat(column - mark.len());
    *mark += &"^".repeat(count);
}

/// Ends a line, and its mark if it has one.
fn push_line(lines: &mut Vec<NameLine>, text: &mut String, mark: &mut String) {
    lines.push(NameLine::Text(std::mem::take(text)));
    if !mark.is_empty() {
        lines.push(NameLine::Mark(std::mem::take(mark)));
    }
}

/// Leaves out what is too much behind the mark.
fn cut(lines: &mut Vec<NameLine>) {
    let marked = |line: &NameLine| matches!(line, NameLine::Mark(_));
    let behind_mark = lines.iter().rposition(marked).map_or(0, |mark| mark + 1);
    let kept = behind_mark.max(MOST_LINES);
    if lines.len() > kept {
        lines.truncate(kept);
        lines.push(NameLine::Text("...".to_string()));
    }
}

#[cfg(test)]
mod tests {
    use super::*;

    fn lines(name: &[u8], mark: Option<Range<usize>>) -> String {
        ShownName::new(name, mark).to_string()
    }

    #[test]
    fn the_mark_stands_below_its_bytes() {
        assert_eq!(lines(b"A-b", Some(1..2)), "A-b\n ^");
        assert_eq!(lines(b"A`1[[Bcd]]", Some(5..8)), "A`1[[Bcd]]\n     ^^^");
        assert_eq!(lines(b"A`1[[", Some(5..5)), "A`1[[\n     ^");
        assert_eq!(lines(b"A", None), "A");
    }

    #[test]
    fn control_bytes_are_escaped_and_the_mark_is_as_wide() {
        assert_eq!(lines(b"A\x1B[2J", Some(1..2)), "A\\x1B[2J\n ^^^^");
        let escaped = "A, \\\\\\x80\\xFF\n     ^^^^";
        assert_eq!(lines(b"A, \\\x80\xFF", Some(4..5)), escaped);
        for byte in 0..=u8::MAX {
            let shown = shown(byte);
            assert!(shown.bytes().all(|it| matches!(it, b' '..=b'~')), "{byte}");
        }
    }

    #[test]
    fn a_long_name_is_folded() {
        let name = [b'A'; 1024];
        let line = "A".repeat(WIDTH);
        let last = "A".repeat(1024 % WIDTH);
        let whole = format!("{}{last}", format!("{line}\n").repeat(1024 / WIDTH));
        assert_eq!(lines(&name, None), whole);
        // In the middle, over a fold, and behind the last byte.
        let place = 5 * WIDTH + 3;
        let marked = format!("{}   ^\n", format!("{line}\n").repeat(6));
        let shown = lines(&name, Some(place..place + 1));
        assert!(shown.starts_with(&marked), "{shown}");
        let end = WIDTH;
        let marked = format!("{line}\n{}^^\n{line}\n^\n{line}\n", " ".repeat(end - 2));
        let shown = lines(&name, Some(end - 2..end + 1));
        assert!(shown.starts_with(&marked), "{shown}");
        let full = &name[..WIDTH];
        let marked = format!("{line}\n{}^", " ".repeat(WIDTH));
        assert_eq!(lines(full, Some(WIDTH..WIDTH)), marked);
    }

    #[test]
    fn what_is_too_much_is_left_out_behind_the_mark() {
        let mut name = vec![b'A'; 1024];
        name[700..].fill(0x80);
        // Nine lines and a part hold 700 letters, and a line holds 19 escapes.
        let shown = lines(&name, Some(700..701));
        let lines_shown: Vec<&str> = shown.lines().collect();
        assert_eq!(lines_shown.len(), MOST_LINES + 1);
        assert_eq!(lines_shown[10].trim_start(), "^^^^");
        assert_eq!(lines_shown[MOST_LINES], "...");
        // The mark is never left out.
        let shown = lines(&name, Some(1024..1024));
        assert!(shown.ends_with('^') && !shown.contains("..."), "{shown}");
    }
}
