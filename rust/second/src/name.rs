//! The grammar of reader names, and which part of a name is wrong (Req 04).
//!
//! A name is read once from left to right. Up to each byte only one reading is possible, so the first byte that
//! cannot go on is the leftmost fault, and the part that it stands in gives its number.

use crate::refusal::{
    demand, refuse, Refusal, BRACKETS, DIGIT, EMPTY_HEAD, HEAD_BYTE, NESTED_TOO_DEEP, TAIL_BYTE,
};

const DEEPEST_LEVEL: u32 = 8;

/// A name taken apart; its tail is dropped.
#[derive(Debug)]
pub struct Name<'n> {
    /// Where its head starts in the file.
    pub place: usize,
    pub head: &'n [u8],
    pub arguments: Vec<Name<'n>>,
}

/// Takes a whole reader name apart; the name's first byte stands at this place of the file.
pub fn parse_name(text: &[u8], place: usize) -> Result<Name<'_>, Refusal> {
    let at = 0;
    Parser { text, place, at }.name(1)
}

struct Parser<'n> {
    text: &'n [u8],
    /// Where the text starts in the file.
    place: usize,
    at: usize,
}

impl<'n> Parser<'n> {
    /// A name at a level; the reader's own is level 1.
    fn name(&mut self, level: u32) -> Result<Name<'n>, Refusal> {
        self.demand_here(level <= DEEPEST_LEVEL, NESTED_TOO_DEEP)?;
        let place = self.here();
        let head = self.head()?;
        let mut arguments = Vec::new();
        let mut part = HEAD_BYTE;
        if self.next() == Some(b'`') {
            self.at += 1;
            arguments = self.arguments(level)?;
            part = BRACKETS;
        }
        if self.next() == Some(b',') {
            self.at += 1;
            self.take_while(is_tail_byte);
            part = TAIL_BYTE;
        }
        self.end_of_name(level, part)?;
        Ok(Name {
            place,
            head,
            arguments,
        })
    }

    /// "A head is empty where no head byte stands at its start."
    fn head(&mut self) -> Result<&'n [u8], Refusal> {
        let start = self.here();
        let head = self.take_while(is_head_byte);
        demand(!head.is_empty(), EMPTY_HEAD, start)?;
        Ok(head)
    }

    /// A digit and as many bracketed names as it says.
    fn arguments(&mut self, level: u32) -> Result<Vec<Name<'n>>, Refusal> {
        let count = self.digit()?;
        let mut arguments = Vec::new();
        self.bracket(b'[')?;
        for index in 0..count {
            if index > 0 {
                self.bracket(b',')?;
            }
            self.bracket(b'[')?;
            arguments.push(self.name(level + 1)?);
            self.bracket(b']')?;
        }
        self.bracket(b']')?;
        Ok(arguments)
    }

    fn digit(&mut self) -> Result<u32, Refusal> {
        let count = match self.next() {
            Some(b'1') => 1,
            Some(b'2') => 2,
            _ => return refuse(DIGIT, self.here()),
        };
        self.at += 1;
        Ok(count)
    }

    /// A bracket, or the comma between two bracketed names.
    fn bracket(&mut self, due: u8) -> Result<(), Refusal> {
        self.demand_here(self.next() == Some(due), BRACKETS)?;
        self.at += 1;
        Ok(())
    }

    /// The reader's own name ends with the text and each other one before a bracket.
    ///
    /// Any other byte is a fault of the part that it follows: a head, brackets or a tail.
    fn end_of_name(&self, level: u32, part: u32) -> Result<(), Refusal> {
        let nested = level > 1;
        match self.next() {
            None => self.demand_here(!nested, BRACKETS),
            Some(b']') if nested => Ok(()),
            Some(_) => refuse(part, self.here()),
        }
    }

    fn next(&self) -> Option<u8> {
        self.text.get(self.at).copied()
    }

    /// The place in the file that is reached.
    fn here(&self) -> usize {
        self.place + self.at
    }

    fn demand_here(&self, rule_holds: bool, number: u32) -> Result<(), Refusal> {
        demand(rule_holds, number, self.here())
    }

    fn take_while(&mut self, belongs: fn(u8) -> bool) -> &'n [u8] {
        let start = self.at;
        while self.next().is_some_and(belongs) {
            self.at += 1;
        }
        &self.text[start..self.at]
    }
}

/// "The head is one or more ASCII letters, digits, `.`, `_`, `+`."
pub fn is_head(bytes: &[u8]) -> bool {
    !bytes.is_empty() && bytes.iter().all(|&byte| is_head_byte(byte))
}

fn is_head_byte(byte: u8) -> bool {
    byte.is_ascii_alphanumeric() || b"._+".contains(&byte)
}

fn is_tail_byte(byte: u8) -> bool {
    (0x20..=0x7E).contains(&byte) && byte != b'[' && byte != b']'
}
