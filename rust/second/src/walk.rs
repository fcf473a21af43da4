//! Reading values: objects, raw values and all below them.

use crate::cursor::Cursor;
use crate::image::{level_size, longest_chain, LAST_FORMAT, LONGEST_SIDE};
use crate::kinds::{
    is_value_type, ARRAY, BOOLEAN, CHAR, DATE_TIME, DECIMAL, DICTIONARY, IMAGE_LEVEL, INDEX_BUFFER,
    INT32, LIST, MODEL, NULL, NULLABLE, PAGE, RECTANGLE, SHARED_REFERENCE, SINGLE, SPRITE_FONT,
    STRING, TEXTURE2D, VECTOR3, VERTEX_BUFFER, VERTEX_DECLARATION,
};
use crate::refusal::{
    demand, refuse, Refusal, BAD_VALUE, FONT_RULE, NOT_DECLARED, NO_READER, NO_RESOURCE,
    NO_ROW_LEFT, PAST_END, RESOURCE_TYPE, TOO_DEEP,
};
use crate::row::Row;
use crate::types::Type;
use crate::utf8::{character_size, first_character, is_text};

const DEEPEST: u32 = 32;
const LAST_TICK: u64 = 3_155_378_975_999_999_999;
const LARGEST_SCALE: u32 = 28;

/// Where a value stands: the row above it, if any, and its depth.
#[derive(Clone, Copy)]
pub struct Spot {
    parent: Option<usize>,
    depth: u32,
}

impl Spot {
    /// The primary object and each shared object.
    pub const TOP: Spot = Spot {
        parent: None,
        depth: 1,
    };

    /// The spot of the children of the value that stands here and has this row.
    pub fn below(self, row: usize) -> Spot {
        Spot {
            parent: Some(row),
            depth: self.depth + 1,
        }
    }
}

/// A reference whose resource is judged when all resources are known.
struct Reference {
    place: usize,
    position: usize,
    /// The kind that its resource must have unless it is null; none for an effect, which has no kind.
    wanted_kind: Option<u32>,
}

/// The walk through the values of one file.
pub struct Walk<'f> {
    pub cursor: Cursor<'f>,
    /// The target types of the reader list.
    readers: &'f [Type],
    shared_count: u32,
    room: usize,
    pub rows: Vec<Row>,
    references: Vec<Reference>,
}

/// How many children the value just read has.
pub type Children = Result<u32, Refusal>;

/// The row number of the value just read.
pub type RowRead = Result<usize, Refusal>;

impl<'f> Walk<'f> {
    pub fn new(
        cursor: Cursor<'f>,
        readers: &'f [Type],
        shared_count: u32,
        room: usize,
    ) -> Walk<'f> {
        Walk {
            cursor,
            readers,
            shared_count,
            room,
            rows: Vec::new(),
            references: Vec::new(),
        }
    }

    /// An object: a type id, then the raw value by that reader.
    pub fn object(&mut self, declared: &Type, spot: Spot) -> RowRead {
        let row = self.open_row(spot)?;
        let start = self.cursor.at;
        let id = self.cursor.take_seven()?;
        if id == 0 {
            return self.close_row(row, NULL, 0, 0);
        }
        let Some(target) = self.reader(id) else {
            return refuse(NO_READER, start);
        };
        demand(declared.takes(target), NOT_DECLARED, start)?;
        let children = self.body(target, spot.below(row))?;
        self.close_row(row, target.kind, children, id)
    }

    /// The target of the reader that a type id counts, if it can be invoked.
    fn reader(&self, id: u32) -> Option<&'f Type> {
        let position = id as usize - 1;
        let target = self.readers.get(position)?;
        if target.is_invoked() {
            Some(target)
        } else {
            None
        }
    }

    /// A raw value of a value type.
    pub fn raw(&mut self, value_type: &Type, spot: Spot) -> RowRead {
        let row = self.open_row(spot)?;
        let children = self.body(value_type, spot.below(row))?;
        self.close_row(row, value_type.kind, children, 0)
    }

    /// An element or field: raw if it is of a value type, else an object.
    fn element(&mut self, declared: &Type, spot: Spot) -> RowRead {
        if is_value_type(declared.kind) {
            self.raw(declared, spot)
        } else {
            self.object(declared, spot)
        }
    }

    /// Takes a row for the value that starts here.
    pub fn open_row(&mut self, spot: Spot) -> RowRead {
        demand(spot.depth <= DEEPEST, TOO_DEEP, self.cursor.at)?;
        demand(self.rows.len() < self.room, NO_ROW_LEFT, self.cursor.at)?;
        let row = self.rows.len();
        self.rows.push(Row {
            kind: NULL,
            first: self.cursor.at as u32,
            length: 0,
            children: 0,
            parent: spot.parent.map_or(0, |parent| parent as u32 + 1),
            detail: 0,
            rows: 0,
        });
        Ok(row)
    }

    /// Completes the row of the value that ends here.
    pub fn close_row(&mut self, row: usize, kind: u32, children: u32, detail: u32) -> RowRead {
        let end = self.cursor.at as u32;
        // The rows behind it are those below it.
        let rows = (self.rows.len() - row) as u32;
        let closed = &mut self.rows[row];
        closed.kind = kind;
        closed.length = end - closed.first;
        closed.children = children;
        closed.detail = detail;
        closed.rows = rows;
        Ok(row)
    }

    /// The raw bytes of a value; the spot is that of its children.
    fn body(&mut self, target: &Type, spot: Spot) -> Children {
        match target.kind {
            CHAR => self.character(),
            STRING => self.text(),
            NULLABLE => self.nullable(&target.arguments[0], spot),
            ARRAY | LIST => self.elements(&target.arguments[0], spot),
            DICTIONARY => self.entries(&target.arguments[0], &target.arguments[1], spot),
            TEXTURE2D => self.texture(spot),
            SPRITE_FONT => self.font(spot),
            PAGE => self.page(spot),
            INDEX_BUFFER => self.index_buffer(spot),
            VERTEX_DECLARATION => self.vertex_declaration(spot),
            VERTEX_BUFFER => self.vertex_buffer(spot),
            MODEL => self.model(spot),
            _ => self.fixed(target),
        }
    }

    /// A value of fixed size is one field.
    fn fixed(&mut self, target: &Type) -> Children {
        let Some(size) = target.size() else {
            unreachable!("kind {} has no raw value", target.kind);
        };
        let start = self.cursor.at;
        let bytes = self.cursor.take(size)?;
        let lawful = match target.kind {
            BOOLEAN => bytes[0] <= 1,
            DATE_TIME => is_date_time(bytes),
            DECIMAL => is_decimal(bytes),
            _ => true,
        };
        demand(lawful, BAD_VALUE, start)?;
        Ok(0)
    }

    /// A Char: its lead byte is judged first, then its end, then its other bytes.
    fn character(&mut self) -> Children {
        let start = self.cursor.at;
        let Some(&lead) = self.cursor.file.get(start) else {
            return refuse(PAST_END, start);
        };
        let Some(size) = character_size(lead) else {
            return refuse(BAD_VALUE, start);
        };
        let bytes = self.cursor.take(size)?;
        demand(is_text(bytes), BAD_VALUE, start)?;
        Ok(0)
    }

    /// A String: its missing bytes and its bad bytes are both placed at its count.
    fn text(&mut self) -> Children {
        let start = self.cursor.at;
        let count = self.cursor.take_seven()?;
        let bytes = self.cursor.take_placed(count as usize, start)?;
        demand(is_text(bytes), BAD_VALUE, start)?;
        Ok(0)
    }

    fn nullable(&mut self, value_type: &Type, spot: Spot) -> Children {
        let start = self.cursor.at;
        let flag = self.cursor.take(1)?[0];
        demand(flag <= 1, BAD_VALUE, start)?;
        if flag == 0 {
            return Ok(0);
        }
        self.raw(value_type, spot)?;
        Ok(1)
    }

    fn elements(&mut self, element: &Type, spot: Spot) -> Children {
        let count = self.cursor.take_u32()?;
        for _ in 0..count {
            self.element(element, spot)?;
        }
        Ok(count)
    }

    fn entries(&mut self, key: &Type, value: &Type, spot: Spot) -> Children {
        let count = self.cursor.take_u32()?;
        for _ in 0..count {
            self.element(key, spot)?;
            self.element(value, spot)?;
        }
        Ok(2 * count)
    }

    fn texture(&mut self, spot: Spot) -> Children {
        let format = self.number_in(0, LAST_FORMAT)?;
        let width = self.number_in(1, LONGEST_SIDE)?;
        let height = self.number_in(1, LONGEST_SIDE)?;
        let levels = self.number_in(1, longest_chain(width, height))?;
        for level in 0..levels {
            let size = level_size(format, width, height, level);
            self.image_level(size, spot)?;
        }
        Ok(levels)
    }

    /// A field of four bytes that must lie within bounds.
    fn number_in(&mut self, least: u32, most: u32) -> Result<u32, Refusal> {
        let start = self.cursor.at;
        let number = self.cursor.take_u32()?;
        demand((least..=most).contains(&number), BAD_VALUE, start)?;
        Ok(number)
    }

    /// A level: its size field is judged before its data's end.
    fn image_level(&mut self, lawful_size: Option<u32>, spot: Spot) -> RowRead {
        let row = self.open_row(spot)?;
        let start = self.cursor.at;
        let size = self.cursor.take_u32()?;
        demand(lawful_size == Some(size), BAD_VALUE, start)?;
        self.cursor.take_placed(size as usize, start)?;
        self.close_row(row, IMAGE_LEVEL, 0, 0)
    }

    /// A font: its eight fields in order, then the font rule.
    fn font(&mut self, spot: Spot) -> Children {
        let start = self.cursor.at;
        let texture = self.object(&Type::plain(TEXTURE2D), spot)?;
        let glyphs = self.object(&Type::list_of(RECTANGLE), spot)?;
        let cropping = self.object(&Type::list_of(RECTANGLE), spot)?;
        let characters = self.object(&Type::list_of(CHAR), spot)?;
        self.raw(&Type::plain(INT32), spot)?;
        self.raw(&Type::plain(SINGLE), spot)?;
        let kerning = self.object(&Type::list_of(VECTOR3), spot)?;
        self.raw(&Type::of(NULLABLE, vec![Type::plain(CHAR)]), spot)?;

        let objects = [texture, glyphs, cropping, characters, kerning];
        let lists = [glyphs, cropping, characters, kerning];
        let none_null = objects.iter().all(|&row| self.rows[row].kind != NULL);
        let count = self.rows[characters].children;
        let equal = lists.iter().all(|&row| self.rows[row].children == count);
        let lawful = none_null && equal && self.characters_rise(characters);
        demand(lawful, FONT_RULE, start)?;
        Ok(8)
    }

    /// Whether the characters of a list rise strictly as code points.
    fn characters_rise(&self, list: usize) -> bool {
        let first = list + 1;
        let end = first + self.rows[list].children as usize;
        let characters: Vec<Option<char>> = self.rows[first..end]
            .iter()
            .map(|row| first_character(self.bytes_of(row)))
            .collect();
        characters.windows(2).all(|pair| pair[0] < pair[1])
    }

    /// The bytes of the value that has this row.
    pub fn bytes_of_row(&self, row: usize) -> &'f [u8] {
        self.bytes_of(&self.rows[row])
    }

    fn bytes_of(&self, row: &Row) -> &'f [u8] {
        let first = row.first as usize;
        &self.cursor.file[first..first + row.length as usize]
    }

    /// A page: title, area, reference to its picture and reference to the next page.
    fn page(&mut self, spot: Spot) -> Children {
        self.object(&Type::plain(STRING), spot)?;
        self.raw(&Type::plain(RECTANGLE), spot)?;
        self.reference(Some(TEXTURE2D), spot)?;
        self.reference(Some(PAGE), spot)?;
        Ok(4)
    }

    /// A shared reference: its id is judged here, its resource's type last of all.
    pub fn reference(&mut self, wanted_kind: Option<u32>, spot: Spot) -> RowRead {
        let row = self.open_row(spot)?;
        let place = self.cursor.at;
        let id = self.cursor.take_seven()?;
        demand(id <= self.shared_count, NO_RESOURCE, place)?;
        if id > 0 {
            let position = id as usize - 1;
            self.references.push(Reference {
                place,
                position,
                wanted_kind,
            });
        }
        self.close_row(row, SHARED_REFERENCE, 0, id)
    }

    /// Judges every reference in row order; the resources' row numbers stand in order of position.
    pub fn check_references(&self, resources: &[usize]) -> Result<(), Refusal> {
        for reference in &self.references {
            let resource = &self.rows[resources[reference.position]];
            let fits = resource.kind == NULL || Some(resource.kind) == reference.wanted_kind;
            demand(fits, RESOURCE_TYPE, reference.place)?;
        }
        Ok(())
    }
}

/// The low 62 bits are ticks and the high two bits are 0 to 2.
fn is_date_time(bytes: &[u8]) -> bool {
    let packed = little_endian(bytes);
    let ticks = packed & ((1 << 62) - 1);
    let zone = packed >> 62;
    ticks <= LAST_TICK && zone <= 2
}

/// The fourth word holds a scale in bits 16 to 23 and a sign in bit 31, and nothing else.
fn is_decimal(bytes: &[u8]) -> bool {
    let fourth = little_endian(&bytes[12..16]) as u32;
    let scale = fourth >> 16 & 0xFF;
    let others = fourth & 0x7F00_FFFF;
    scale <= LARGEST_SCALE && others == 0
}

fn little_endian(bytes: &[u8]) -> u64 {
    let add = |number: u64, byte: &u8| number << 8 | u64::from(*byte);
    bytes.iter().rev().fold(0, add)
}
