//! The grammar of reader names, followed to the byte at which a name cannot go on.

use crate::refusal::Refusal::{self, *};
use std::ops::Range;

const DEEPEST: usize = 8;

/// A name taken apart; its tail is dropped.
#[derive(Debug)]
pub struct Name<'f> {
    pub head: &'f str,
    /// Where its head is in the reader's name.
    place: Range<usize>,
    pub arguments: Vec<Name<'f>>,
}

/// The part of a reader's name that breaks a rule.
#[derive(Debug)]
pub struct Wrong {
    pub refusal: Refusal,
    /// Its bytes, counted from the name's first; none at the end of a name that ends too soon.
    pub bytes: Range<usize>,
    /// The rule, and what is found.
    pub words: String,
}

impl<'f> Name<'f> {
    /// A whole reader's name.
    pub fn parse(text: &'f [u8]) -> Result<Name<'f>, Wrong> {
        Parser { text, at: 0 }.name(1)
    }

    /// The fault of a head that is complained of.
    pub fn wrong_head(&self, words: &str) -> Wrong {
        Wrong {
            refusal: NameHead,
            bytes: self.place.clone(),
            words: words.to_string(),
        }
    }
}

struct Parser<'f> {
    text: &'f [u8],
    at: usize,
}

impl<'f> Parser<'f> {
    /// A name at a level; the reader's own is level 1.
    fn name(&mut self, level: usize) -> Result<Name<'f>, Wrong> {
        if level > DEEPEST {
            let words = format!("a name of level {level} starts here, the limit is {DEEPEST}");
            return Err(self.wrong(NestedTooDeep, words));
        }
        let start = self.at;
        let head = self.take_while(is_head_byte);
        if head.is_empty() {
            return Err(self.found(EmptyHead, "a head is due"));
        }
        let place = start..self.at;
        let mut arguments = Vec::new();
        let mut end = (HeadByte, "a head has letters, digits, '.', '_' and '+'");
        if self.next() == Some(b'`') {
            self.at += 1;
            arguments = self.arguments(level)?;
            let due = match level {
                1 => "behind the brackets ',' or the end is due",
                _ => "behind the brackets ',' or ']' is due",
            };
            end = (ArgumentBrackets, due);
        }
        if self.next() == Some(b',') {
            self.at += 1;
            self.take_while(is_tail_byte);
            end = (TailByte, "a tail has bytes 20 to 7E without brackets");
        }
        match (self.next(), level) {
            (None, 1) | (Some(b']'), 2..) => {}
            (None, _) => return Err(self.found(ArgumentBrackets, "']' is due")),
            (Some(_), _) => return Err(self.found(end.0, end.1)),
        }
        Ok(Name {
            head: std::str::from_utf8(head).expect("a head is ASCII"),
            place,
            arguments,
        })
    }

    /// A digit, and as many names in brackets as it says.
    fn arguments(&mut self, level: usize) -> Result<Vec<Name<'f>>, Wrong> {
        let opening: &[&str] = match self.next() {
            Some(b'1') => &["[["],
            Some(b'2') => &["[[", ",["],
            _ => return Err(self.found(ArgumentDigit, "1 or 2 is due")),
        };
        self.at += 1;
        let mut arguments = Vec::new();
        for brackets in opening {
            self.take_each(brackets)?;
            arguments.push(self.name(level + 1)?);
            self.take_each("]")?;
        }
        self.take_each("]")?;
        Ok(arguments)
    }

    /// Brackets, and the comma between two arguments.
    fn take_each(&mut self, brackets: &str) -> Result<(), Wrong> {
        for due in brackets.bytes() {
            if self.next() != Some(due) {
                let due = format!("'{}' is due", char::from(due));
                return Err(self.found(ArgumentBrackets, &due));
            }
            self.at += 1;
        }
        Ok(())
    }

    fn take_while(&mut self, belongs: fn(&u8) -> bool) -> &'f [u8] {
        let rest = &self.text[self.at..];
        let end = rest.iter().position(|byte| !belongs(byte));
        let taken = &rest[..end.unwrap_or(rest.len())];
        self.at += taken.len();
        taken
    }

    fn next(&self) -> Option<u8> {
        self.text.get(self.at).copied()
    }

    /// The fault of the next byte, or of the end.
    fn wrong(&self, refusal: Refusal, words: String) -> Wrong {
        let end = self.text.len().min(self.at + 1);
        Wrong {
            refusal,
            bytes: self.at..end,
            words,
        }
    }

    /// The same, with what is due there and what is found.
    fn found(&self, refusal: Refusal, due: &str) -> Wrong {
        let found = match self.next() {
            None => "the name's end".to_string(),
            Some(byte @ b' '..=b'~') => format!("'{}' ({byte:02X})", char::from(byte)),
            Some(byte) => format!("{byte:02X}"),
        };
        self.wrong(refusal, format!("{due}, found {found}"))
    }
}

/// Whether a head may have this byte.
pub fn is_head_byte(byte: &u8) -> bool {
    byte.is_ascii_alphanumeric() || b"._+".contains(byte)
}

fn is_tail_byte(byte: &u8) -> bool {
    matches!(byte, b' '..=b'~') && !b"[]".contains(byte)
}

#[cfg(test)]
mod tests {
    use super::*;

    /// The refusal's number, the bytes that are marked, and the words.
    fn reported(name: &str) -> (u32, Range<usize>, String) {
        let wrong = Name::parse(name.as_bytes()).expect_err("a broken name");
        (wrong.refusal.number(), wrong.bytes, wrong.words)
    }

    #[test]
    fn each_part_that_is_wrong_is_reported() {
        let eight = "A`1[[".repeat(7);
        let nine = format!("{eight}A`1[[");
        let head = "a head has letters, digits, '.', '_' and '+', found";
        let behind = "behind the brackets ',' or";
        let tail = "a tail has bytes 20 to 7E without brackets, found";
        let table = [
            ("-A", 33, 0..1, "a head is due, found '-' (2D)".to_string()),
            (
                "A`1[[",
                33,
                5..5,
                "a head is due, found the name's end".to_string(),
            ),
            (
                "A`2[[B],[]]",
                33,
                9..10,
                "a head is due, found ']' (5D)".to_string(),
            ),
            ("A b", 34, 1..2, format!("{head} ' ' (20)")),
            ("A]", 34, 1..2, format!("{head} ']' (5D)")),
            ("A`1[[B\u{1B}]]", 34, 6..7, format!("{head} 1B")),
            (
                "A`",
                35,
                2..2,
                "1 or 2 is due, found the name's end".to_string(),
            ),
            (
                "A`3[[B]]",
                35,
                2..3,
                "1 or 2 is due, found '3' (33)".to_string(),
            ),
            ("A`12[[", 36, 3..4, "'[' is due, found '2' (32)".to_string()),
            ("A`1[B]", 36, 4..5, "'[' is due, found 'B' (42)".to_string()),
            (
                "A`1[[B],[C]]",
                36,
                7..8,
                "']' is due, found ',' (2C)".to_string(),
            ),
            (
                "A`2[[B]]",
                36,
                7..8,
                "',' is due, found ']' (5D)".to_string(),
            ),
            (
                "A`1[[B",
                36,
                6..6,
                "']' is due, found the name's end".to_string(),
            ),
            (
                "A`1[[B, c",
                36,
                9..9,
                "']' is due, found the name's end".to_string(),
            ),
            (
                "A`1[[B]]C",
                36,
                8..9,
                format!("{behind} the end is due, found 'C' (43)"),
            ),
            (
                "A`1[[B`1[[C]][",
                36,
                13..14,
                format!("{behind} ']' is due, found '[' (5B)"),
            ),
            ("A, [", 37, 3..4, format!("{tail} '[' (5B)")),
            ("A`1[[B,\t]]", 37, 7..8, format!("{tail} 09")),
            (
                &nine,
                38,
                40..40,
                "a name of level 9 starts here, the limit is 8".to_string(),
            ),
        ];
        for (name, number, bytes, words) in table {
            assert_eq!(reported(name), (number, bytes, words), "{name}");
        }
    }

    #[test]
    fn a_well_formed_name_is_taken_apart() {
        let name = Name::parse(b"A`2[[B`1[[C, c]], b],[D]],").expect("a good name");
        assert_eq!((name.head, name.place), ("A", 0..1));
        let [b, d] = &name.arguments[..] else {
            panic!("two arguments");
        };
        assert_eq!((b.head, b.place.clone()), ("B", 5..6));
        assert_eq!((d.head, d.place.clone()), ("D", 22..23));
        assert_eq!(b.arguments[0].place, 10..11);
        assert!(d.arguments.is_empty());
    }
}
