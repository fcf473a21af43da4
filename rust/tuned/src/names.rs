//! The grammar of reader names (Req 04).

use crate::refusal::{
    refuse, Refusal, BRACKETS, DIGIT, EMPTY_HEAD, HEAD_BYTE, NESTED_TOO_DEEP, TAIL_BYTE,
};

const DEEPEST_NAME: u32 = 8;

/// A name in a reader's name: the place of its head, its length and the number of its arguments.
#[derive(Clone, Copy)]
pub struct Name {
    pub at: u32,
    pub length: u16,
    pub arguments: u8,
}

const fn head_bytes() -> [bool; 256] {
    let mut table = [false; 256];
    let mut byte = 0;
    while byte < 256 {
        let b = byte as u8;
        table[byte] = b.is_ascii_alphanumeric() || matches!(b, b'.' | b'_' | b'+');
        byte += 1;
    }
    table
}
static HEAD_BYTES: [bool; 256] = head_bytes();

/// Bytes of the tail, which names an assembly.
fn is_tail_byte(byte: u8) -> bool {
    byte.wrapping_sub(0x20) < 0x5F && byte != b'[' && byte != b']'
}

/// Whether the bytes are a head.
pub fn is_head(bytes: &[u8]) -> bool {
    !bytes.is_empty() && bytes.iter().all(|&byte| HEAD_BYTES[usize::from(byte)])
}

/// Parses the name that the text ends with, and puts it before its arguments.
pub fn parse_name(text: &[u8], at: usize, names: &mut Vec<Name>) -> Result<(), Refusal> {
    names.clear();
    Parser { text, at, names }.name(1)
}

struct Parser<'n> {
    text: &'n [u8],
    at: usize,
    names: &'n mut Vec<Name>,
}

impl Parser<'_> {
    /// The next byte; at the end 0, which stands in no part of a name.
    #[inline(always)]
    fn next(&self) -> u8 {
        self.text.get(self.at).copied().unwrap_or(0)
    }

    #[inline(always)]
    fn takes(&mut self, byte: u8) -> bool {
        let taken = self.text.get(self.at) == Some(&byte);
        self.at += usize::from(taken);
        taken
    }

    fn due(&mut self, byte: u8) -> Result<(), Refusal> {
        if self.takes(byte) {
            return Ok(());
        }
        refuse(BRACKETS, self.at)
    }

    fn name(&mut self, level: u32) -> Result<(), Refusal> {
        if level > DEEPEST_NAME {
            return refuse(NESTED_TOO_DEEP, self.at);
        }
        let start = self.at;
        while HEAD_BYTES[usize::from(self.next())] {
            self.at += 1;
        }
        if self.at == start {
            return refuse(EMPTY_HEAD, start);
        }
        let number = self.names.len();
        self.names.push(Name {
            at: start as u32,
            length: (self.at - start) as u16,
            arguments: 0,
        });
        let mut wrong = HEAD_BYTE;
        if self.takes(b'`') {
            self.names[number].arguments = self.arguments(level)?;
            wrong = BRACKETS;
        }
        if self.takes(b',') {
            self.skip_tail();
            wrong = TAIL_BYTE;
        }
        match (level, self.text.get(self.at)) {
            (1, None) => Ok(()),
            (_, None) => refuse(BRACKETS, self.at),
            (2.., Some(b']')) => Ok(()),
            _ => refuse(wrong, self.at),
        }
    }

    /// A digit, then that many names in brackets.
    fn arguments(&mut self, level: u32) -> Result<u8, Refusal> {
        let count = match self.next() {
            b'1' => 1,
            b'2' => 2,
            _ => return refuse(DIGIT, self.at),
        };
        self.at += 1;
        self.due(b'[')?;
        for i in 0..count {
            if i > 0 {
                self.due(b',')?;
            }
            self.due(b'[')?;
            self.name(level + 1)?;
            self.due(b']')?;
        }
        self.due(b']')?;
        Ok(count)
    }

    /// The bytes of a tail, sixteen at once where all of them are of it.
    fn skip_tail(&mut self) {
        while let Some(block) = self.text[self.at..].first_chunk::<16>() {
            if !block
                .iter()
                .fold(true, |all, &byte| all & is_tail_byte(byte))
            {
                break;
            }
            self.at += block.len();
        }
        while is_tail_byte(self.next()) {
            self.at += 1;
        }
    }
}
