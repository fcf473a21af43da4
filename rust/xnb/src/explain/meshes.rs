//! Index buffers, vertex declarations, vertex buffers and models, field by field as the format lays them out.

use super::cursor::Step;
use super::walk::Walk;
use crate::header::Target;
use crate::kind::Kind;
use crate::meshes::{ElementFormat, ElementUsage};
use crate::refusal::Refusal::BadValue;
use std::fmt::Display;

const LAST_FORMAT: u32 = ElementFormat::HalfVector4 as u32;
const LAST_USAGE: u32 = ElementUsage::TessellateFactor as u32;
/// A model of so many bones has references of four bytes.
const MANY_BONES: u32 = 255;

impl<'f> Walk<'_, 'f> {
    pub fn index_buffer(&mut self, depth: u32) -> Step<'f, ()> {
        let flag = self.cursor.at;
        self.fixed(Kind::Boolean, depth)?;
        let is_16_bit = self.cursor.file[flag] == 1;
        let multiple = if is_16_bit { 2 } else { 4 };
        let start = self.cursor.at;
        let size = self.number("the data size of an IndexBuffer", depth)?;
        self.cursor.meet(BadValue, start, || {
            let wrong = size % multiple != 0;
            wrong.then(|| {
                format!(
                    "IndexBuffer: the data size is {size}; only a multiple of {multiple} is taken"
                )
            })
        })?;
        self.data(u64::from(size), "the index data", depth)
    }

    /// Gives the stride.
    pub fn declaration(&mut self, depth: u32) -> Step<'f, u32> {
        let of = |what| format!("the {what} of a VertexDeclaration");
        let stride = self.number(of("stride"), depth)?;
        let count = self.number(of("element count"), depth)?;
        for _ in 0..count {
            self.number("the offset of an element", depth)?;
            self.code("format", LAST_FORMAT, depth)?;
            self.code("usage", LAST_USAGE, depth)?;
            self.number("the usage index of an element", depth)?;
        }
        Ok(stride)
    }

    pub fn vertex_buffer(&mut self, depth: u32) -> Step<'f, ()> {
        self.open(depth)?;
        let stride = self.declaration(depth + 1)?;
        let count = self.number("the vertex count of a VertexBuffer", depth)?;
        let size = u64::from(count) * u64::from(stride);
        self.data(size, "the vertex data", depth)
    }

    pub fn model(&mut self, depth: u32) -> Step<'f, ()> {
        let bones = self.number("the bone count of a Model", depth)?;
        for _ in 0..bones {
            self.object(&Target::plain(Kind::String), depth)?;
            self.fixed(Kind::Matrix, depth)?;
        }
        for _ in 0..bones {
            self.bone(bones, depth)?;
            let children = self.number("the child count of a bone", depth)?;
            for _ in 0..children {
                self.bone(bones, depth)?;
            }
        }
        let meshes = self.number("the mesh count of a Model", depth)?;
        for _ in 0..meshes {
            self.mesh(bones, depth)?;
        }
        self.bone(bones, depth)?;
        self.tag(depth)
    }

    fn mesh(&mut self, bones: u32, depth: u32) -> Step<'f, ()> {
        self.object(&Target::plain(Kind::String), depth)?;
        self.bone(bones, depth)?;
        self.fixed(Kind::Vector3, depth)?;
        self.fixed(Kind::Single, depth)?;
        self.tag(depth)?;
        let parts = self.number("the part count of a mesh", depth)?;
        for _ in 0..parts {
            self.part(depth)?;
        }
        Ok(())
    }

    fn part(&mut self, depth: u32) -> Step<'f, ()> {
        for what in [
            "vertex offset",
            "vertex count",
            "start index",
            "primitive count",
        ] {
            self.number(format_args!("the {what} of a mesh part"), depth)?;
        }
        self.tag(depth)?;
        self.reference(Some(Kind::VertexBuffer), depth)?;
        self.reference(Some(Kind::IndexBuffer), depth)?;
        self.reference(None, depth)
    }

    fn tag(&mut self, depth: u32) -> Step<'f, ()> {
        self.object(&Target::object(), depth).map(|_| ())
    }

    fn number(&mut self, what: impl Display, depth: u32) -> Step<'f, u32> {
        self.open(depth)?;
        self.cursor.take_u32(what)
    }

    /// A number of an element that the format lists.
    fn code(&mut self, what: &str, last: u32, depth: u32) -> Step<'f, ()> {
        let start = self.cursor.at;
        let code = self.number(format_args!("the {what} of an element"), depth)?;
        self.cursor.meet(BadValue, start, || {
            let signed = code as i32;
            let listed = code <= last;
            (!listed).then(|| {
                format!(
                    "VertexDeclaration: the element {what} is {signed}; only 0 to {last} are taken"
                )
            })
        })
    }

    fn bone(&mut self, bones: u32, depth: u32) -> Step<'f, ()> {
        self.open(depth)?;
        let start = self.cursor.at;
        let reference = match bones {
            0..MANY_BONES => u32::from(self.cursor.take(1, "a bone reference")?[0]),
            _ => self.cursor.take_u32("a bone reference")?,
        };
        self.cursor.meet(BadValue, start, || {
            (reference > bones).then(|| {
                format!("BoneReference: the number is {reference}, the bone count {bones}")
            })
        })
    }

    /// Data, whose missing bytes are placed at its first byte.
    fn data(&mut self, size: u64, what: &str, depth: u32) -> Step<'f, ()> {
        self.open(depth)?;
        let size = usize::try_from(size).unwrap_or(usize::MAX);
        self.cursor.take(size, what)?;
        Ok(())
    }
}
