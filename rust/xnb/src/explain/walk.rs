//! The values of a file, one after the other, to the place of a refusal.

use super::cursor::{bytes, Cursor, Step, Stop};
use super::header::take_header;
use super::readers::{take_readers, take_shared_count, Reader};
use super::values;
use crate::enums::size_in;
use crate::header::Target;
use crate::kind::Kind;
use crate::numbers::unsigned;
use crate::refusal::Refusal::*;

const DEEPEST: u32 = 32;
/// The size of an enum that is not listed.
const UNLISTED_SIZE: u8 = 4;

/// Follows a file to the place of its refusal.
pub fn follow<'f>(mut cursor: Cursor<'f>, enums: &[u8], room: usize) -> Step<'f, ()> {
    take_header(&mut cursor)?;
    let readers = take_readers(&mut cursor, enums)?;
    let shared = take_shared_count(&mut cursor)?;
    let mut walk = Walk {
        cursor,
        enums,
        readers: &readers,
        shared,
        room,
        rows: 0,
        references: Vec::new(),
    };
    walk.file()
}

/// A reference, whose resource is judged when all resources are known.
struct Reference {
    place: usize,
    id: u32,
    /// What the resource must be, unless it is null; none for an effect, which must be null.
    wanted: Option<Kind>,
}

pub struct Walk<'a, 'f> {
    pub cursor: Cursor<'f>,
    enums: &'a [u8],
    readers: &'a [Reader<'f>],
    shared: u32,
    room: usize,
    rows: usize,
    references: Vec<Reference>,
}

/// An object that was passed.
#[derive(Clone, Copy)]
pub struct Passed<'a, 'f> {
    /// Where it begins.
    start: usize,
    /// Its type, if it is not null.
    target: Option<&'a Target<'f>>,
    /// The bytes behind its type id.
    raw: &'f [u8],
}

impl Passed<'_, '_> {
    /// The count that a list begins with.
    fn count(&self) -> u64 {
        unsigned(self.raw.get(..4).unwrap_or_default())
    }
}

impl<'a, 'f> Walk<'a, 'f> {
    fn file(&mut self) -> Step<'f, ()> {
        let anything = Target::object();
        self.object(&anything, 1)?;
        let mut resources = Vec::new();
        for _ in 0..self.shared {
            resources.push(self.object(&anything, 1)?);
        }
        let (end, left) = (self.cursor.at, self.cursor.left());
        self.cursor.meet(LeftOver, end, || {
            (left > 0).then(|| format!("the last object ends there, left over: {}", bytes(left)))
        })?;
        self.meet_wrong_resource(&resources)
    }

    fn meet_wrong_resource(&self, resources: &[Passed]) -> Step<'f, ()> {
        for Reference { place, id, wanted } in &self.references {
            let resource = &resources[*id as usize - 1];
            let Some(target) = resource.target else {
                continue;
            };
            self.cursor.meet(ResourceType, *place, || {
                let found = format!("found {target} as resource {id} at byte {}", resource.start);
                match wanted.map(Target::plain) {
                    None => Some(format!("declared an effect, which must be null, {found}")),
                    Some(wanted) if wanted == *target => None,
                    Some(wanted) => Some(format!("declared {wanted}, {found}")),
                }
            })?;
        }
        Ok(())
    }

    /// Takes a row for the value that starts here.
    pub fn open(&mut self, depth: u32) -> Step<'f, ()> {
        let (at, room) = (self.cursor.at, self.room);
        if depth > DEEPEST {
            self.cursor.meet(TooDeep, at, || {
                Some(format!("the value's depth is {depth}, the limit {DEEPEST}"))
            })?;
            return Err(Stop::Lost);
        }
        if self.rows >= room {
            self.cursor.meet(NoRowLeft, at, || {
                Some(format!(
                    "the table has room for {room} rows, this value needs one more"
                ))
            })?;
            return Err(Stop::Lost);
        }
        self.rows += 1;
        Ok(())
    }

    /// An object: a type id, then the raw value by that reader.
    pub fn object(&mut self, declared: &Target, depth: u32) -> Step<'f, Passed<'a, 'f>> {
        self.open(depth)?;
        let start = self.cursor.at;
        let id = self.cursor.take_seven("the type id")? as usize;
        let Some(position) = id.checked_sub(1) else {
            let (target, raw) = (None, &[][..]);
            return Ok(Passed { start, target, raw });
        };
        let Some(reader) = self.readers.get(position) else {
            let count = self.readers.len();
            self.cursor.meet(NoReader, start, || {
                Some(format!("the type id is {id}, the reader list has {count}"))
            })?;
            return Err(Stop::Lost);
        };
        let (target, name) = (&reader.target, Some(reader.name));
        self.cursor.meet_reader(NoReader, start, name, || {
            let never = target.kind.is_none();
            never.then(|| format!("reader {id} is for {target} and never invoked"))
        })?;
        self.cursor.meet_reader(NotDeclared, start, name, || {
            let other = !declared.takes(target);
            other.then(|| format!("declared {declared}, found {target} by reader {id}"))
        })?;
        let first = self.cursor.at;
        self.body(target, depth + 1)?;
        let raw = &self.cursor.file[first..self.cursor.at];
        let target = Some(target);
        Ok(Passed { start, target, raw })
    }

    /// A field of a fixed size.
    pub fn fixed(&mut self, kind: Kind, depth: u32) -> Step<'f, ()> {
        self.open(depth)?;
        values::take_fixed(&mut self.cursor, kind)
    }

    fn raw(&mut self, value: &Target, depth: u32) -> Step<'f, ()> {
        self.open(depth)?;
        self.body(value, depth + 1)
    }

    /// An element or field: raw if it is of a value type, else an object.
    fn element(&mut self, declared: &Target, depth: u32) -> Step<'f, ()> {
        if declared.is_value() {
            self.raw(declared, depth)
        } else {
            self.object(declared, depth).map(|_| ())
        }
    }

    /// The raw bytes of a value; the depth is that of its children.
    fn body(&mut self, target: &Target, depth: u32) -> Step<'f, ()> {
        let kind = target.kind.ok_or(Stop::Lost)?;
        match (kind, &target.arguments[..]) {
            (Kind::Enum, _) => {
                let size = size_in(self.enums, target.name.as_bytes());
                values::take_enum(&mut self.cursor, size.unwrap_or(UNLISTED_SIZE).into())
            }
            (Kind::Char, _) => values::take_char(&mut self.cursor),
            (Kind::String, _) => values::take_text(&mut self.cursor),
            (Kind::Nullable, [value]) => self.nullable(value, depth),
            (Kind::Array | Kind::List, [_]) | (Kind::Dictionary, [_, _]) => {
                self.elements(kind, &target.arguments, depth)
            }
            (Kind::Texture2D, _) => self.texture(depth),
            (Kind::SpriteFont, _) => self.font(depth),
            (Kind::Page, _) => self.page(depth),
            (Kind::IndexBuffer, _) => self.index_buffer(depth),
            (Kind::VertexDeclaration, _) => self.declaration(depth).map(|_| ()),
            (Kind::VertexBuffer, _) => self.vertex_buffer(depth),
            (Kind::Model, _) => self.model(depth),
            _ => values::take_fixed(&mut self.cursor, kind),
        }
    }

    fn nullable(&mut self, value: &Target, depth: u32) -> Step<'f, ()> {
        match values::take_nullable_flag(&mut self.cursor)? {
            0 => Ok(()),
            _ => self.raw(value, depth),
        }
    }

    /// A count, and as many elements, or keys and values in turn.
    fn elements(&mut self, kind: Kind, types: &[Target], depth: u32) -> Step<'f, ()> {
        let what = format_args!("the count of a value of kind {kind}");
        let count = self.cursor.take_u32(what)?;
        for _ in 0..count {
            for element in types {
                self.element(element, depth)?;
            }
        }
        Ok(())
    }

    fn texture(&mut self, depth: u32) -> Step<'f, ()> {
        let image = values::take_image(&mut self.cursor)?;
        for level in 0..image.levels {
            self.open(depth)?;
            values::take_level(&mut self.cursor, &image, level)?;
        }
        Ok(())
    }

    /// A font: its eight fields in order, then the font rule.
    fn font(&mut self, depth: u32) -> Step<'f, ()> {
        let start = self.cursor.at;
        let list = |element| Target::with(Kind::List, element);
        let texture = self.object(&Target::plain(Kind::Texture2D), depth)?;
        let glyphs = self.object(&list(Kind::Rectangle), depth)?;
        let cropping = self.object(&list(Kind::Rectangle), depth)?;
        let characters = self.object(&list(Kind::Char), depth)?;
        self.fixed(Kind::Int32, depth)?;
        self.fixed(Kind::Single, depth)?;
        let kerning = self.object(&list(Kind::Vector3), depth)?;
        self.raw(&Target::with(Kind::Nullable, Kind::Char), depth)?;
        self.cursor.meet(FontRule, start, || {
            let objects = [
                ("texture", texture),
                ("glyphs", glyphs),
                ("cropping", cropping),
                ("characters", characters),
                ("kerning", kerning),
            ];
            if let Some((name, _)) = objects.iter().find(|(_, it)| it.target.is_none()) {
                return Some(format!("an object of the font is null: its {name}"));
            }
            let lists = &objects[1..];
            if lists.iter().any(|(_, it)| it.count() != characters.count()) {
                let counts = lists
                    .iter()
                    .map(|(name, it)| format!("{name} {}", it.count()));
                let counts: Vec<String> = counts.collect();
                return Some(format!(
                    "the counts of the lists differ: {}",
                    counts.join(", ")
                ));
            }
            values::characters_that_do_not_rise(characters.raw.get(4..)?)
        })
    }

    /// A page: title, area, reference to its picture and reference to the next page.
    fn page(&mut self, depth: u32) -> Step<'f, ()> {
        self.object(&Target::plain(Kind::String), depth)?;
        self.fixed(Kind::Rectangle, depth)?;
        self.reference(Some(Kind::Texture2D), depth)?;
        self.reference(Some(Kind::Page), depth)
    }

    pub fn reference(&mut self, wanted: Option<Kind>, depth: u32) -> Step<'f, ()> {
        self.open(depth)?;
        let (place, shared) = (self.cursor.at, self.shared);
        let id = self.cursor.take_seven("the resource id")?;
        if id > shared {
            self.cursor.meet(NoResource, place, || {
                Some(format!(
                    "the resource id is {id}, the shared count {shared}"
                ))
            })?;
            return Err(Stop::Lost);
        }
        if id > 0 {
            self.references.push(Reference { place, id, wanted });
        }
        Ok(())
    }
}
