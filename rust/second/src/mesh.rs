//! Gauge meshes (Req 05): index buffers, vertex declarations, vertex buffers and models, as 000 lays them out.
//!
//! Rows are flat: elements, bones, meshes and parts have no row of their own, and their fields are children of the owner.

use crate::kinds::{
    BONE_REFERENCE, BOOLEAN, DATA_BYTES, INDEX_BUFFER, INT32, MATRIX, OBJECT, SINGLE, STRING,
    UINT32, VECTOR3, VERTEX_BUFFER, VERTEX_DECLARATION,
};
use crate::refusal::{demand, Refusal, BAD_VALUE, PAST_END};
use crate::types::Type;
use crate::walk::{Children, RowRead, Spot, Walk};

/// 0 is Single and 11 is HalfVector4.
const LAST_ELEMENT_FORMAT: u32 = 11;
/// 0 is Position and 12 is TessellateFactor.
const LAST_ELEMENT_USAGE: u32 = 12;
/// "If bone count is less than 255 this value is serialized as a Byte, otherwise it is UInt32."
const BONES_FOR_FOUR_BYTES: u32 = 255;

/// A vertex declaration that was read.
struct Declaration {
    children: u32,
    stride: u32,
}

impl Walk<'_> {
    /// Is 16 bit, data size, index data.
    pub fn index_buffer(&mut self, spot: Spot) -> Children {
        let is_16_bit = self.flag(spot)?;
        let index_size = if is_16_bit { 2 } else { 4 };
        let start = self.cursor.at;
        let size = self.number(UINT32, spot)?;
        demand(size % index_size == 0, BAD_VALUE, start)?;
        self.data_bytes(u64::from(size), spot)?;
        Ok(3)
    }

    pub fn vertex_declaration(&mut self, spot: Spot) -> Children {
        Ok(self.declaration(spot)?.children)
    }

    /// Vertex stride, element count, and for each element offset, format, usage and usage index.
    fn declaration(&mut self, spot: Spot) -> Result<Declaration, Refusal> {
        let stride = self.number(UINT32, spot)?;
        let count = self.number(UINT32, spot)?;
        let mut children = 2;
        for _ in 0..count {
            self.number(UINT32, spot)?;
            self.code(LAST_ELEMENT_FORMAT, spot)?;
            self.code(LAST_ELEMENT_USAGE, spot)?;
            self.number(UINT32, spot)?;
            children += 4;
        }
        Ok(Declaration { children, stride })
    }

    /// Vertex declaration, which stands raw, vertex count, vertex data.
    pub fn vertex_buffer(&mut self, spot: Spot) -> Children {
        let row = self.open_row(spot)?;
        let declaration = self.declaration(spot.below(row))?;
        self.close_row(row, VERTEX_DECLARATION, declaration.children, 0)?;
        let count = self.number(UINT32, spot)?;
        let size = u64::from(count) * u64::from(declaration.stride);
        self.data_bytes(size, spot)?;
        Ok(3)
    }

    /// Bones, the tree of bones, meshes, the root bone and the model's tag.
    pub fn model(&mut self, spot: Spot) -> Children {
        let bones = self.number(UINT32, spot)?;
        let mut children = 1;
        for _ in 0..bones {
            self.object(&Type::plain(STRING), spot)?;
            self.raw(&Type::plain(MATRIX), spot)?;
            children += 2;
        }
        for _ in 0..bones {
            children += self.bone_links(bones, spot)?;
        }
        let meshes = self.number(UINT32, spot)?;
        children += 1;
        for _ in 0..meshes {
            children += self.mesh(bones, spot)?;
        }
        self.bone_reference(bones, spot)?;
        self.tag(spot)?;
        Ok(children + 2)
    }

    /// A bone's parent, its child count and its children.
    fn bone_links(&mut self, bones: u32, spot: Spot) -> Children {
        self.bone_reference(bones, spot)?;
        let count = self.number(UINT32, spot)?;
        for _ in 0..count {
            self.bone_reference(bones, spot)?;
        }
        Ok(2 + count)
    }

    /// Name, parent bone, bounding sphere, tag, part count and the parts.
    fn mesh(&mut self, bones: u32, spot: Spot) -> Children {
        self.object(&Type::plain(STRING), spot)?;
        self.bone_reference(bones, spot)?;
        self.raw(&Type::plain(VECTOR3), spot)?;
        self.raw(&Type::plain(SINGLE), spot)?;
        self.tag(spot)?;
        let parts = self.number(UINT32, spot)?;
        let mut children = 6;
        for _ in 0..parts {
            children += self.part(spot)?;
        }
        Ok(children)
    }

    /// Vertex offset, vertex number, start index, primitive count, tag and three shared references.
    fn part(&mut self, spot: Spot) -> Children {
        for _ in 0..4 {
            self.number(UINT32, spot)?;
        }
        self.tag(spot)?;
        self.reference(Some(VERTEX_BUFFER), spot)?;
        self.reference(Some(INDEX_BUFFER), spot)?;
        // "Effects stay left out, so an effect reference must be null or name a null resource."
        self.reference(None, spot)?;
        Ok(8)
    }

    /// "A bone reference above the bone count is refused."
    fn bone_reference(&mut self, bones: u32, spot: Spot) -> RowRead {
        let row = self.open_row(spot)?;
        let start = self.cursor.at;
        let number = if bones < BONES_FOR_FOUR_BYTES {
            u32::from(self.cursor.take(1)?[0])
        } else {
            self.cursor.take_u32()?
        };
        demand(number <= bones, BAD_VALUE, start)?;
        self.close_row(row, BONE_REFERENCE, 0, 0)
    }

    /// Data bytes: where they run past the end, they are placed at their first byte.
    fn data_bytes(&mut self, size: u64, spot: Spot) -> RowRead {
        let row = self.open_row(spot)?;
        demand(size <= self.cursor.left() as u64, PAST_END, self.cursor.at)?;
        self.cursor.take(size as usize)?;
        self.close_row(row, DATA_BYTES, 0, 0)
    }

    fn tag(&mut self, spot: Spot) -> RowRead {
        self.object(&Type::plain(OBJECT), spot)
    }

    fn flag(&mut self, spot: Spot) -> Result<bool, Refusal> {
        let row = self.raw(&Type::plain(BOOLEAN), spot)?;
        Ok(self.bytes_of_row(row) == [1])
    }

    /// A raw value of four bytes, as a number.
    fn number(&mut self, kind: u32, spot: Spot) -> Result<u32, Refusal> {
        let row = self.raw(&Type::plain(kind), spot)?;
        let mut bytes = [0; 4];
        bytes.copy_from_slice(self.bytes_of_row(row));
        Ok(u32::from_le_bytes(bytes))
    }

    /// A signed number that 000 lists as a code; a negative one is past the last as well.
    fn code(&mut self, last: u32, spot: Spot) -> Result<(), Refusal> {
        let start = self.cursor.at;
        let code = self.number(INT32, spot)?;
        demand(code <= last, BAD_VALUE, start)
    }
}
