//! Textures, fonts and pages.

use crate::kinds::{
    CHAR, IMAGE_LEVEL, INT32, NULL, NULLABLE, PAGE, RECTANGLE, SHARED_REFERENCE, SINGLE, STRING,
    TEXTURE2D, VECTOR3,
};
use crate::refusal::{BAD_VALUE, FONT_RULE, NO_RESOURCE, PAST_END};
use crate::walk::{Closed, Declared, Reference, Row, Spot, Walk};

const LAST_FORMAT: u32 = 18;
const LONGEST_SIDE: u32 = 4096;

impl<const RECORD: bool> Walk<'_, RECORD> {
    /// Format, width, height and level count, then the levels.
    #[inline(never)]
    pub fn texture(&mut self, spot: Spot) -> Option<u32> {
        let format = self.number_in(0, LAST_FORMAT)?;
        let width = self.number_in(1, LONGEST_SIDE)?;
        let height = self.number_in(1, LONGEST_SIDE)?;
        let levels = self.number_in(1, 32 - width.max(height).leading_zeros())?;
        for level in 0..levels {
            let side = |side: u32| (side >> level).max(1);
            self.image_level(level_size(format, side(width), side(height)), spot)?;
        }
        Some(levels)
    }

    /// A number of four bytes within bounds.
    fn number_in(&mut self, least: u32, most: u32) -> Option<u32> {
        let start = self.cursor.at;
        let number = self.cursor.number()?;
        if number < least || number > most {
            return self.cursor.refuse(BAD_VALUE, start);
        }
        Some(number)
    }

    /// A level: its size is judged before its data's end.
    fn image_level(&mut self, due: u32, spot: Spot) -> Option<()> {
        self.room(spot)?;
        let start = self.cursor.at;
        let size = self.cursor.number()?;
        if size != due {
            return self.cursor.refuse(BAD_VALUE, start);
        }
        if size as usize > self.cursor.left() {
            return self.cursor.refuse(PAST_END, start);
        }
        self.cursor.at += size as usize;
        self.leaf(IMAGE_LEVEL, start, spot, 0);
        Some(())
    }

    /// A font: its eight fields in order, then the font rule.
    #[inline(never)]
    pub fn font(&mut self, spot: Spot) -> Option<u32> {
        let start = self.cursor.at;
        let texture = self.font_object(Declared::Kind(TEXTURE2D), spot)?;
        let glyphs = self.font_object(Declared::ListOf(RECTANGLE), spot)?;
        let cropping = self.font_object(Declared::ListOf(RECTANGLE), spot)?;
        let characters = self.font_object(Declared::ListOf(CHAR), spot)?;
        self.field(INT32, spot)?;
        self.field(SINGLE, spot)?;
        let kerning = self.font_object(Declared::ListOf(VECTOR3), spot)?;
        self.default_character(spot)?;

        let children = |row: usize| self.rows[row][3];
        let none_null = [texture, glyphs, cropping, characters, kerning]
            .iter()
            .all(|&row| self.rows[row][0] != u32::from(NULL));
        let equal = [glyphs, cropping, kerning]
            .iter()
            .all(|&row| children(row) == children(characters));
        if !none_null || !equal || !self.characters_rise(characters) {
            return self.cursor.refuse(FONT_RULE, start);
        }
        Some(8)
    }

    /// An object of a font; answers its row.
    fn font_object(&mut self, declared: Declared, spot: Spot) -> Option<usize> {
        let row = self.used;
        self.object(declared, spot)?;
        Some(row)
    }

    /// A nullable Char.
    fn default_character(&mut self, spot: Spot) -> Option<()> {
        self.room(spot)?;
        let start = self.cursor.at;
        let Some(&flag) = self.cursor.file.get(start) else {
            return self.cursor.refuse(PAST_END, start);
        };
        if flag > 1 {
            return self.cursor.refuse(BAD_VALUE, start);
        }
        let row = self.open();
        self.cursor.at += 1;
        if flag == 1 {
            let below = spot.below(row);
            self.room(below)?;
            let first = self.cursor.at;
            self.character()?;
            self.leaf(CHAR, first, below, 0);
        }
        let of = Closed {
            kind: NULLABLE,
            start,
            children: u32::from(flag),
            detail: 0,
        };
        self.close(row, of, spot);
        Some(())
    }

    /// Whether the characters of a list rise strictly; the order of UTF-8 is that of the code points.
    fn characters_rise(&self, list: usize) -> bool {
        let count = self.rows[list][3] as usize;
        let bytes = |[_, first, length, ..]: &Row| {
            let first = *first as usize;
            &self.cursor.file[first..first + *length as usize]
        };
        let characters = self.rows[list + 1..][..count].iter().map(bytes);
        characters.is_sorted_by(|one, next| one < next)
    }

    /// A page: title, area, reference to its picture and reference to the next page.
    #[inline(never)]
    pub fn page(&mut self, spot: Spot) -> Option<u32> {
        self.object(Declared::Kind(STRING), spot)?;
        self.field(RECTANGLE, spot)?;
        self.reference(u32::from(TEXTURE2D), spot)?;
        self.reference(u32::from(PAGE), spot)?;
        Some(4)
    }

    /// A shared reference: its id is judged here, its resource's type last of all.
    #[inline(always)]
    pub fn reference(&mut self, wanted_kind: u32, spot: Spot) -> Option<()> {
        self.room(spot)?;
        let start = self.cursor.at;
        let id = self.cursor.seven()?;
        if id > self.shared {
            return self.cursor.refuse(NO_RESOURCE, start);
        }
        if id > 0 {
            self.references.push(Reference {
                place: start as u32,
                position: id - 1,
                wanted_kind,
            });
        }
        self.leaf(SHARED_REFERENCE, start, spot, id);
        Some(())
    }
}

/// The number of bytes in a level of a format up to the last.
fn level_size(format: u32, width: u32, height: u32) -> u32 {
    let blocks = width.div_ceil(4) * height.div_ceil(4);
    let pixels = width * height;
    match format {
        4 => 8 * blocks,
        5 | 6 => 16 * blocks,
        12 => pixels,
        1 | 2 | 3 | 7 | 16 => 2 * pixels,
        0 | 8 | 9 | 10 | 13 | 17 => 4 * pixels,
        11 | 14 | 18 => 8 * pixels,
        _ => 16 * pixels,
    }
}
