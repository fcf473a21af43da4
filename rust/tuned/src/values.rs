//! Values without objects below them.

use crate::kinds::{BOOLEAN, CHAR, DATE_TIME, DECIMAL, NULLABLE};
use crate::refusal::{BAD_VALUE, PAST_END};
use crate::types::Type;
use crate::utf8::is_text;
use crate::walk::{Closed, Spot, Walk};

const LAST_TICK: u64 = 3_155_378_975_999_999_999;
const LARGEST_SCALE: u8 = 28;

/// Whether values of a fixed size may be unlawful.
#[inline(always)]
pub fn has_rule(kind: u8) -> bool {
    matches!(kind, BOOLEAN | DATE_TIME | DECIMAL)
}

impl<const RECORD: bool> Walk<'_, RECORD> {
    /// A raw value of a value type.
    #[inline(always)]
    pub fn raw(&mut self, value_type: Type, spot: Spot) -> Option<()> {
        self.room(spot)?;
        let start = self.cursor.at;
        match value_type.kind {
            NULLABLE => {
                let row = self.open();
                let of = Closed {
                    kind: NULLABLE,
                    start,
                    children: self.nullable(value_type, spot.below(row))?,
                    detail: 0,
                };
                self.close(row, of, spot);
                return Some(());
            }
            CHAR => self.character()?,
            _ => self.fixed(value_type)?,
        }
        self.leaf(value_type.kind, start, spot, 0);
        Some(())
    }

    /// The bytes of a value of a fixed size.
    #[inline(always)]
    pub fn fixed(&mut self, value_type: Type) -> Option<()> {
        let start = self.cursor.at;
        let size = usize::from(value_type.size);
        let Some(bytes) = self.cursor.file[start..].get(..size) else {
            return self.cursor.refuse(PAST_END, start);
        };
        if has_rule(value_type.kind) && !is_lawful(value_type.kind, bytes) {
            return self.cursor.refuse(BAD_VALUE, start);
        }
        self.cursor.at += size;
        Some(())
    }

    /// A value of a fixed size, with its row.
    #[inline(always)]
    pub fn field(&mut self, kind: u8, spot: Spot) -> Option<()> {
        self.room(spot)?;
        let start = self.cursor.at;
        self.fixed(Type::plain(kind))?;
        self.leaf(kind, start, spot, 0);
        Some(())
    }

    /// A number of four bytes, with its row.
    #[inline(always)]
    pub fn number_field(&mut self, kind: u8, spot: Spot) -> Option<u32> {
        self.room(spot)?;
        let start = self.cursor.at;
        let number = self.cursor.number()?;
        self.leaf(kind, start, spot, 0);
        Some(number)
    }

    /// A Char: its lead byte is judged first, then its end, then its other bytes.
    #[inline(always)]
    pub fn character(&mut self) -> Option<()> {
        match self.cursor.file.get(self.cursor.at) {
            Some(&byte) if byte < 0x80 => {
                self.cursor.at += 1;
                Some(())
            }
            Some(&lead) => self.long_character(lead),
            None => self.cursor.refuse(PAST_END, self.cursor.at),
        }
    }

    #[inline(never)]
    fn long_character(&mut self, lead: u8) -> Option<()> {
        let start = self.cursor.at;
        let size = match lead {
            0xC2..=0xDF => 2,
            0xE0..=0xEF => 3,
            _ => return self.cursor.refuse(BAD_VALUE, start),
        };
        let Some(bytes) = self.cursor.file[start..].get(..size) else {
            return self.cursor.refuse(PAST_END, start);
        };
        if std::str::from_utf8(bytes).is_err() {
            return self.cursor.refuse(BAD_VALUE, start);
        }
        self.cursor.at += size;
        Some(())
    }

    /// A text: its missing bytes and its bad bytes are both placed at its count.
    #[inline(always)]
    pub fn text(&mut self) -> Option<()> {
        let start = self.cursor.at;
        let count = self.cursor.seven()? as usize;
        let Some(bytes) = self.cursor.file[self.cursor.at..].get(..count) else {
            return self.cursor.refuse(PAST_END, start);
        };
        if !is_text(bytes) {
            return self.cursor.refuse(BAD_VALUE, start);
        }
        self.cursor.at += count;
        Some(())
    }

    /// A flag, and a value if it is set; answers the number of values. The spot is that of the value.
    #[inline(always)]
    pub fn nullable(&mut self, nullable: Type, spot: Spot) -> Option<u32> {
        let start = self.cursor.at;
        match self.cursor.file.get(start) {
            Some(0) => {
                self.cursor.at += 1;
                return Some(0);
            }
            Some(1) => self.cursor.at += 1,
            Some(_) => return self.cursor.refuse(BAD_VALUE, start),
            None => return self.cursor.refuse(PAST_END, start),
        }
        self.room(spot)?;
        let [inner, _] = nullable.arguments;
        let inner = self.types[usize::from(inner)];
        let first = self.cursor.at;
        match inner.kind {
            CHAR => self.character()?,
            _ => self.fixed(inner)?,
        }
        self.leaf(inner.kind, first, spot, 0);
        Some(1)
    }
}

/// The rules of values with a rule, over as many bytes as they have.
#[inline(never)]
fn is_lawful(kind: u8, bytes: &[u8]) -> bool {
    match (kind, bytes) {
        (BOOLEAN, [byte]) => *byte <= 1,
        (DATE_TIME, _) => {
            let packed = bytes
                .first_chunk()
                .map_or(u64::MAX, |it| u64::from_le_bytes(*it));
            packed & ((1 << 62) - 1) <= LAST_TICK && packed >> 62 <= 2
        }
        (DECIMAL, [.., 0, 0, scale, sign]) => *scale <= LARGEST_SCALE && sign & 0x7F == 0,
        _ => false,
    }
}
