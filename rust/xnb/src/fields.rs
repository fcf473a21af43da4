//! The fields of a value, one after the other.

use crate::calls::Loaded;
use crate::kind::Kind;
use crate::numbers::{numbers, unsigned, Number};
use crate::refusal::{Refusal, Refused};
use crate::row::{Detail, Row};
use crate::shape::{Shape, Shaped};
use crate::table::Grid;
use crate::value::value_part;

/// A table, whatever words it has.
#[derive(Clone, Copy, Debug)]
pub struct View<'t, 'f> {
    shape: Shape,
    file: &'f [u8],
    words: &'t [u32],
    loaded: Loaded,
}

impl<'t, 'f> View<'t, 'f> {
    pub fn row(self, number: u32) -> Row {
        let words = self.shape.row(self.words, number as usize);
        let row = words.and_then(|words| Row::of_words(number, words));
        row.expect("a load leaves rows of known kinds")
    }

    /// The part of a row without its type id and count.
    pub fn value_bytes(self, row: &Row) -> &'f [u8] {
        value_part(self.file, row)
    }

    /// The fields of a value, which are behind its row.
    pub fn fields(self, number: u32) -> Fields<'t, 'f> {
        Fields {
            view: self,
            next: number + 1,
        }
    }

    /// The row number of a shared object.
    pub fn resource(self, id: u32) -> Option<u32> {
        if id == 0 || id as usize > self.loaded.shared {
            return None;
        }
        let behind = |number| number + self.row(number).rows as u32;
        Some((0..id).fold(0, |number, _| behind(number)))
    }

    /// The row number of a shared object that is not null.
    pub fn present_resource(self, id: Option<u32>) -> Option<u32> {
        let number = self.resource(id?)?;
        (self.row(number).kind != Kind::Null).then_some(number)
    }
}

impl<'f, S: Shaped, W: AsRef<[u32]>> Grid<'f, S, W> {
    /// The row number of a shared object by its resource id, which counts from 1; it takes a step for each object before.
    pub fn resource(&self, id: u32) -> Option<u32> {
        self.view().resource(id)
    }

    /// The fields of a row of this kind, or 23 or 24.
    pub(crate) fn fields(&self, number: u32, kind: Kind) -> Result<Fields<'_, 'f>, Refused> {
        let row = self.known_row(number)?;
        if row.kind != kind {
            return Err(Refused {
                refusal: Refusal::OtherKind,
                place: number,
            });
        }
        Ok(self.view().fields(number))
    }

    fn view(&self) -> View<'_, 'f> {
        View {
            shape: S::SHAPE,
            file: self.file(),
            words: self.all_words(),
            loaded: self.loaded(),
        }
    }
}

/// The fields of a value from one on, each a row with all below it.
#[derive(Clone, Copy, Debug)]
pub struct Fields<'t, 'f> {
    pub view: View<'t, 'f>,
    next: u32,
}

impl<'f> Fields<'_, 'f> {
    /// Goes past the next field, and gives its row.
    pub fn take(&mut self) -> Row {
        let row = self.view.row(self.next);
        self.next += row.rows as u32;
        row
    }

    pub fn skip(&mut self, count: u32) {
        for _ in 0..count {
            self.take();
        }
    }

    /// The row number of the next field.
    pub fn number(&mut self) -> u32 {
        self.take().number
    }

    /// The bytes of the next field, none if it is empty data.
    pub fn bytes(&mut self) -> &'f [u8] {
        let row = self.take();
        self.view.value_bytes(&row)
    }

    pub fn flag(&mut self) -> bool {
        self.bytes() == [1]
    }

    pub fn u32(&mut self) -> u32 {
        u32::of_bytes(self.bytes())
    }

    pub fn i32(&mut self) -> i32 {
        i32::of_bytes(self.bytes())
    }

    pub fn floats<const COUNT: usize>(&mut self) -> [f32; COUNT] {
        numbers(self.bytes())
    }

    /// The place of a bone in the list of bones, of one byte or of four.
    pub fn bone(&mut self) -> Option<usize> {
        (unsigned(self.bytes()) as usize).checked_sub(1)
    }

    /// A text, unless it is null.
    pub fn text(&mut self) -> Option<&'f str> {
        let row = self.take();
        if row.kind == Kind::Null {
            return None;
        }
        let text = self.view.value_bytes(&row);
        Some(std::str::from_utf8(text).expect("a load takes only UTF-8"))
    }

    /// The resource id of a reference, unless it is null.
    pub fn resource_id(&mut self) -> Option<u32> {
        match self.take().detail {
            Detail::ResourceId(id) => Some(id),
            _ => None,
        }
    }

    /// What each child of the next field is by its bytes.
    pub fn each<T>(&mut self, of_bytes: fn(&[u8]) -> T) -> Vec<T> {
        let row = self.take();
        let mut children = self.view.fields(row.number);
        (0..row.children)
            .map(|_| of_bytes(children.bytes()))
            .collect()
    }
}
