//! Arrays, lists and dictionaries; runs of plain values are taken at once.

use crate::kinds::{BOOLEAN, CHAR, NULL, NULLABLE, OBJECT, STRING};
use crate::refusal::{BAD_VALUE, NO_ROW_LEFT, PAST_END, TOO_DEEP};
use crate::types::Type;
use crate::utf8::is_text;
use crate::values::has_rule;
use crate::walk::{Declared, Spot, Walk, DEEPEST};

impl<const RECORD: bool> Walk<'_, RECORD> {
    /// The keys and values of a dictionary; answers their number.
    #[inline(never)]
    pub fn entries(&mut self, key: u16, value: u16, spot: Spot) -> Option<u32> {
        let count = self.cursor.number()?;
        for _ in 0..count {
            self.element(key, spot)?;
            self.element(value, spot)?;
        }
        Some(2 * count)
    }

    /// The elements of an array or a list; answers their number.
    #[inline(always)]
    pub fn elements(&mut self, number: u16, spot: Spot) -> Option<u32> {
        let count = self.cursor.number()?;
        if count == 0 {
            return Some(0);
        }
        if spot.depth > DEEPEST {
            return self.cursor.refuse(TOO_DEEP, self.cursor.at);
        }
        let element = self.types[usize::from(number)];
        match element.kind {
            BOOLEAN => self.booleans(count, spot)?,
            CHAR => self.characters(count, spot)?,
            NULLABLE => self.nullables(count, element, spot)?,
            OBJECT => self.objects(count, spot)?,
            kind if element.size != 0 && !has_rule(kind) => self.run(count, element, spot)?,
            _ => {
                for _ in 0..count {
                    self.element(number, spot)?;
                }
            }
        }
        Some(count)
    }

    /// How many of so many values of this size have a row and all their bytes.
    #[inline(always)]
    fn fitting(&self, count: u32, size: usize) -> usize {
        let room = self.rows.len() - self.used;
        room.min(self.cursor.left() / size).min(count as usize)
    }

    /// Rows for so many values of this size, one behind the other from here.
    #[inline(always)]
    fn put_run(&mut self, kind: u8, size: usize, count: usize, spot: Spot) {
        let mut at = self.cursor.at as u32;
        for row in &mut self.rows[self.used..self.used + count] {
            *row = [u32::from(kind), at, size as u32, 0, spot.parent, 0, 1];
            at += size as u32;
        }
        self.used += count;
        self.cursor.at += count * size;
    }

    /// Refuses the first value that does not fit, unless there is none.
    #[inline(always)]
    fn refuse_others(&mut self, count: u32, fitting: usize) -> Option<()> {
        if fitting == count as usize {
            return Some(());
        }
        let has_row = self.used < self.rows.len();
        let number = if has_row { PAST_END } else { NO_ROW_LEFT };
        self.cursor.refuse(number, self.cursor.at)
    }

    /// Values of one size without a rule: one test for all, then the rows.
    #[inline(never)]
    fn run(&mut self, count: u32, element: Type, spot: Spot) -> Option<()> {
        let size = usize::from(element.size);
        let fitting = self.fitting(count, size);
        self.put_run(element.kind, size, fitting, spot);
        self.refuse_others(count, fitting)
    }

    /// Booleans: one look over all bytes, then the rows.
    #[inline(never)]
    fn booleans(&mut self, count: u32, spot: Spot) -> Option<()> {
        let fitting = self.fitting(count, 1);
        let bytes = &self.cursor.file[self.cursor.at..][..fitting];
        if bytes.iter().fold(0, |all, byte| all | byte) > 1 {
            let lawful = bytes.iter().take_while(|byte| **byte <= 1).count();
            return self.cursor.refuse(BAD_VALUE, self.cursor.at + lawful);
        }
        self.put_run(BOOLEAN, 1, fitting, spot);
        self.refuse_others(count, fitting)
    }

    /// Characters: those of one byte at once up to the next longer one.
    #[inline(never)]
    fn characters(&mut self, count: u32, spot: Spot) -> Option<()> {
        let mut left = count;
        loop {
            let fitting = self.fitting(left, 1);
            let bytes = &self.cursor.file[self.cursor.at..][..fitting];
            let ascii = if bytes.is_ascii() {
                fitting
            } else {
                bytes.iter().take_while(|byte| byte.is_ascii()).count()
            };
            self.put_run(CHAR, 1, ascii, spot);
            left -= ascii as u32;
            if ascii == fitting {
                return self.refuse_others(left, 0);
            }
            let start = self.cursor.at;
            self.character()?;
            self.leaf(CHAR, start, spot, 0);
            left -= 1;
        }
    }

    /// Nullables; those of a fixed size without a rule that have room for two rows in a loop of their own.
    #[inline(never)]
    fn nullables(&mut self, count: u32, nullable: Type, spot: Spot) -> Option<()> {
        let [inner, _] = nullable.arguments;
        let inner = self.types[usize::from(inner)];
        let (kind, size) = (u32::from(inner.kind), u32::from(inner.size));
        let mut left = count;
        if spot.depth < DEEPEST && size != 0 && !has_rule(inner.kind) {
            let file = self.cursor.file;
            while left > 0 {
                let (at, rows) = (self.cursor.at as u32, &mut self.rows[self.used..]);
                let values = &file[self.cursor.at..];
                let (Some([row, below]), true) =
                    (rows.first_chunk_mut(), values.len() > size as usize)
                else {
                    break;
                };
                let children = u32::from(values[0]);
                if children > 1 {
                    break;
                }
                let length = 1 + children * size;
                let nullable = u32::from(NULLABLE);
                *row = [nullable, at, length, children, spot.parent, 0, 1 + children];
                *below = [kind, at + 1, size, 0, self.used as u32 + 1, 0, 1];
                self.used += 1 + children as usize;
                self.cursor.at += length as usize;
                left -= 1;
            }
        }
        for _ in 0..left {
            self.raw(nullable, spot)?;
        }
        Some(())
    }

    /// Objects of any type; small ones are taken here, the others by the walk.
    #[inline(never)]
    fn objects(&mut self, count: u32, spot: Spot) -> Option<()> {
        let (file, types, targets) = (self.cursor.file, self.types, self.targets);
        let (mut at, mut used) = (self.cursor.at, self.used);
        for _ in 0..count {
            if let Some(row) = self.rows.get_mut(used) {
                if let Some(small) = small_object(file, types, targets, at) {
                    let (kind, id) = (u32::from(small.kind), u32::from(small.id));
                    let length = (small.end - at) as u32;
                    *row = [kind, at as u32, length, 0, spot.parent, id, 1];
                    at = small.end;
                    used += 1;
                    continue;
                }
            }
            (self.cursor.at, self.used) = (at, used);
            self.object_of(Declared::Anything, spot)?;
            (at, used) = (self.cursor.at, self.used);
        }
        (self.cursor.at, self.used) = (at, used);
        Some(())
    }
}

/// A null, a value of a fixed size without a rule, or a text whose count has one byte.
struct Small {
    kind: u8,
    id: u8,
    end: usize,
}

/// The small object that stands here, if one does and nothing is wrong with it.
#[inline(always)]
fn small_object(file: &[u8], types: &[Type], targets: &[u16], at: usize) -> Option<Small> {
    let (id, next) = (*file.get(at)?, at + 1);
    if id == 0 {
        let (kind, end) = (NULL, next);
        return Some(Small { kind, id, end });
    }
    let target = types[usize::from(*targets.get(usize::from(id) - 1)?)];
    let kind = target.kind;
    let end = if target.size != 0 && !has_rule(kind) {
        next + usize::from(target.size)
    } else if kind == STRING {
        let (&count, rest) = file[next..].split_first()?;
        let text = rest.get(..usize::from(count))?;
        if count >= 0x80 || !is_text(text) {
            return None;
        }
        next + 1 + text.len()
    } else {
        return None;
    };
    (end <= file.len()).then_some(Small { kind, id, end })
}
