//! The walk through the values of a file in file order, a row for each.

use crate::cursor::Cursor;
use crate::kinds::{
    ARRAY, CHAR, DICTIONARY, INDEX_BUFFER, LIST, MODEL, NULL, NULLABLE, OBJECT, PAGE, SPRITE_FONT,
    STRING, TEXTURE, TEXTURE2D, VERTEX_BUFFER, VERTEX_DECLARATION,
};
use crate::readers::Readers;
use crate::refusal::{LEFT_OVER, NOT_DECLARED, NO_READER, NO_ROW_LEFT, RESOURCE_TYPE, TOO_DEEP};
use crate::types::{are_same, Type};
use crate::WORDS_PER_ROW;

pub const DEEPEST: u32 = 32;

/// Kind, first byte, length, children, parent's number plus 1, detail, rows with all below it.
pub type Row = [u32; WORDS_PER_ROW];

/// A reference that is judged when all resources are known.
pub struct Reference {
    pub place: u32,
    pub position: u32,
    /// The kind that its resource must have unless it is null.
    pub wanted_kind: u32,
}

/// What a place declares of the object that stands there.
#[derive(Clone, Copy)]
pub enum Declared {
    Anything,
    /// A type by its number.
    Type(u16),
    Kind(u8),
    ListOf(u8),
}

/// Where a value stands: the parent's row number plus 1, or 0, and the depth.
#[derive(Clone, Copy)]
pub struct Spot {
    pub parent: u32,
    pub depth: u32,
}

impl Spot {
    const TOP: Spot = Spot {
        parent: 0,
        depth: 1,
    };

    /// The spot of the children of the value that stands here and has this row.
    #[inline(always)]
    pub fn below(self, row: usize) -> Spot {
        Spot {
            parent: row as u32 + 1,
            depth: self.depth + 1,
        }
    }
}

/// The walk: rows stand in the lent ones from the first on, `used` of them.
pub struct Walk<'w, const RECORD: bool> {
    pub cursor: Cursor<'w, RECORD>,
    pub types: &'w [Type],
    pub targets: &'w [u16],
    pub shared: u32,
    pub rows: &'w mut [Row],
    pub used: usize,
    pub references: Vec<Reference>,
}

impl<'w, const RECORD: bool> Walk<'w, RECORD> {
    pub fn new(
        cursor: Cursor<'w, RECORD>,
        readers: &'w Readers,
        shared: u32,
        rows: &'w mut [Row],
    ) -> Self {
        Walk {
            cursor,
            types: &readers.types,
            targets: readers.targets(),
            shared,
            rows,
            used: 0,
            references: Vec::new(),
        }
    }

    /// The primary object, the shared objects and nothing behind them.
    pub fn file(&mut self) -> Option<()> {
        self.any_object(Spot::TOP)?;
        let mut kinds = Vec::new();
        for _ in 0..self.shared {
            let row = self.used;
            self.any_object(Spot::TOP)?;
            kinds.push(self.rows[row][0]);
        }
        if self.cursor.left() != 0 {
            return self.cursor.refuse(LEFT_OVER, self.cursor.at);
        }
        let is_wrong = |it: &&Reference| {
            let kind = kinds[it.position as usize];
            kind != u32::from(NULL) && kind != it.wanted_kind
        };
        if let Some(wrong) = self.references.iter().find(is_wrong) {
            return self.cursor.refuse(RESOURCE_TYPE, wrong.place as usize);
        }
        Some(())
    }

    /// Refuses a value here that is too deep or has no row left.
    #[inline(always)]
    pub fn room(&mut self, spot: Spot) -> Option<()> {
        if spot.depth > DEEPEST {
            return self.cursor.refuse(TOO_DEEP, self.cursor.at);
        }
        if self.used >= self.rows.len() {
            return self.cursor.refuse(NO_ROW_LEFT, self.cursor.at);
        }
        Some(())
    }

    /// The row of a value without children that ends here.
    #[inline(always)]
    pub fn leaf(&mut self, kind: u8, start: usize, spot: Spot, detail: u32) {
        let length = (self.cursor.at - start) as u32;
        let kind = u32::from(kind);
        self.rows[self.used] = [kind, start as u32, length, 0, spot.parent, detail, 1];
        self.used += 1;
    }

    /// Leaves a row free for a value that may have children.
    #[inline(always)]
    pub fn open(&mut self) -> usize {
        self.used += 1;
        self.used - 1
    }

    /// Completes the row that was left free for the value that ends here.
    #[inline(always)]
    pub fn close(&mut self, row: usize, of: Closed, spot: Spot) {
        let (start, kind) = (of.start as u32, u32::from(of.kind));
        let length = self.cursor.at as u32 - start;
        let all = (self.used - row) as u32;
        let (children, parent) = (of.children, spot.parent);
        self.rows[row] = [kind, start, length, children, parent, of.detail, all];
    }

    /// Whether a place takes an object of a type, which has this number.
    #[inline(always)]
    fn takes(&self, declared: Declared, number: u16, target: Type) -> bool {
        match declared {
            Declared::Anything => true,
            Declared::Kind(kind) => kind == target.kind,
            Declared::ListOf(kind) => {
                let [element, _] = target.arguments;
                target.kind == LIST && self.types[usize::from(element)].kind == kind
            }
            Declared::Type(due) => match self.types[usize::from(due)].kind {
                OBJECT => true,
                TEXTURE => target.kind == TEXTURE2D,
                _ => are_same(self.cursor.file, self.types, due, number),
            },
        }
    }

    /// An object of any type.
    pub fn any_object(&mut self, spot: Spot) -> Option<()> {
        self.object_of(Declared::Anything, spot)
    }

    /// An object at a place that declares something.
    pub fn object(&mut self, declared: Declared, spot: Spot) -> Option<()> {
        self.object_of(declared, spot)
    }

    /// An object: a type id, then the raw value by that reader.
    #[inline(always)]
    pub fn object_of(&mut self, declared: Declared, spot: Spot) -> Option<()> {
        self.room(spot)?;
        let start = self.cursor.at;
        let id = self.cursor.seven()?;
        if id == 0 {
            self.leaf(NULL, start, spot, 0);
            return Some(());
        }
        let Some(&number) = self.targets.get(id as usize - 1) else {
            return self.cursor.refuse(NO_READER, start);
        };
        let target = self.types[usize::from(number)];
        if matches!(target.kind, OBJECT | TEXTURE) {
            return self.cursor.refuse(NO_READER, start);
        }
        if !self.takes(declared, number, target) {
            return self.cursor.refuse(NOT_DECLARED, start);
        }
        if target.size != 0 {
            self.fixed(target)?;
            self.leaf(target.kind, start, spot, id);
            return Some(());
        }
        if target.kind == STRING {
            self.text()?;
            self.leaf(STRING, start, spot, id);
            return Some(());
        }
        let row = self.open();
        let below = spot.below(row);
        let children = match target.kind {
            ARRAY | LIST => self.elements(target.arguments[0], below)?,
            _ => self.body(target, below)?,
        };
        let of = Closed {
            kind: target.kind,
            start,
            children,
            detail: id,
        };
        self.close(row, of, spot);
        Some(())
    }

    /// An element: raw if it is of a value type, else an object.
    pub fn element(&mut self, number: u16, spot: Spot) -> Option<()> {
        let declared = self.types[usize::from(number)];
        if declared.size != 0 || matches!(declared.kind, CHAR | NULLABLE) {
            self.raw(declared, spot)
        } else {
            self.object(Declared::Type(number), spot)
        }
    }

    /// The raw bytes of an object that is neither of a fixed size nor a text nor a list; answers its children.
    ///
    /// The spot is that of its children.
    #[inline(never)]
    fn body(&mut self, target: Type, spot: Spot) -> Option<u32> {
        let [first, second] = target.arguments;
        match target.kind {
            CHAR => self.character().map(|()| 0),
            NULLABLE => self.nullable(target, spot),
            DICTIONARY => self.entries(first, second, spot),
            TEXTURE2D => self.texture(spot),
            SPRITE_FONT => self.font(spot),
            PAGE => self.page(spot),
            INDEX_BUFFER => self.index_buffer(spot),
            VERTEX_DECLARATION => self.declaration(spot).map(|it| it.children),
            VERTEX_BUFFER => self.vertex_buffer(spot),
            MODEL => self.model(spot),
            kind => unreachable!("kind {kind} has no raw value"),
        }
    }
}

/// What is told of a value when it ends.
pub struct Closed {
    pub kind: u8,
    pub start: usize,
    pub children: u32,
    pub detail: u32,
}
