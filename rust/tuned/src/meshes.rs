//! Gauge meshes (Req 05): index buffers, vertex declarations, vertex buffers and models.

use crate::kinds::{
    BONE_REFERENCE, BOOLEAN, DATA_BYTES, INDEX_BUFFER, INT32, MATRIX, SINGLE, STRING, UINT32,
    VECTOR3, VERTEX_BUFFER, VERTEX_DECLARATION,
};
use crate::refusal::{BAD_VALUE, PAST_END};
use crate::walk::{Closed, Declared, Spot, Walk};

const LAST_ELEMENT_FORMAT: u32 = 11;
const LAST_ELEMENT_USAGE: u32 = 12;
/// "If bone count is less than 255 this value is serialized as a Byte, otherwise it is UInt32."
const BONES_FOR_FOUR_BYTES: u32 = 255;
/// An effect, which no resource is.
const NO_KIND: u32 = u32::MAX;

/// A vertex declaration that was read.
pub struct Declaration {
    pub children: u32,
    stride: u32,
}

impl<const RECORD: bool> Walk<'_, RECORD> {
    /// Is 16 bit, data size, index data.
    #[inline(never)]
    pub fn index_buffer(&mut self, spot: Spot) -> Option<u32> {
        let flag = self.cursor.at;
        self.field(BOOLEAN, spot)?;
        let index_size = if self.cursor.file[flag] == 1 { 2 } else { 4 };
        let start = self.cursor.at;
        let size = self.number_field(UINT32, spot)?;
        if size % index_size != 0 {
            return self.cursor.refuse(BAD_VALUE, start);
        }
        self.data_bytes(u64::from(size), spot)?;
        Some(3)
    }

    /// Vertex stride, element count, and for each element offset, format, usage and usage index.
    #[inline(never)]
    pub fn declaration(&mut self, spot: Spot) -> Option<Declaration> {
        let stride = self.number_field(UINT32, spot)?;
        let count = self.number_field(UINT32, spot)?;
        for _ in 0..count {
            self.number_field(UINT32, spot)?;
            self.code(LAST_ELEMENT_FORMAT, spot)?;
            self.code(LAST_ELEMENT_USAGE, spot)?;
            self.number_field(UINT32, spot)?;
        }
        let children = 2 + 4 * count;
        Some(Declaration { children, stride })
    }

    /// A code from 0 to the last.
    fn code(&mut self, last: u32, spot: Spot) -> Option<()> {
        let start = self.cursor.at;
        if self.number_field(INT32, spot)? > last {
            return self.cursor.refuse(BAD_VALUE, start);
        }
        Some(())
    }

    /// Vertex declaration, which stands raw, vertex count, vertex data.
    #[inline(never)]
    pub fn vertex_buffer(&mut self, spot: Spot) -> Option<u32> {
        self.room(spot)?;
        let (start, row) = (self.cursor.at, self.open());
        let declaration = self.declaration(spot.below(row))?;
        let of = Closed {
            kind: VERTEX_DECLARATION,
            start,
            children: declaration.children,
            detail: 0,
        };
        self.close(row, of, spot);
        let count = self.number_field(UINT32, spot)?;
        let size = u64::from(count) * u64::from(declaration.stride);
        self.data_bytes(size, spot)?;
        Some(3)
    }

    /// So many bytes.
    fn data_bytes(&mut self, size: u64, spot: Spot) -> Option<()> {
        self.room(spot)?;
        let start = self.cursor.at;
        if size > self.cursor.left() as u64 {
            return self.cursor.refuse(PAST_END, start);
        }
        self.cursor.at += size as usize;
        self.leaf(DATA_BYTES, start, spot, 0);
        Some(())
    }

    /// Bones, their hierarchy, meshes, root and tag.
    #[inline(never)]
    pub fn model(&mut self, spot: Spot) -> Option<u32> {
        let bones = self.number_field(UINT32, spot)?;
        for _ in 0..bones {
            self.object(Declared::Kind(STRING), spot)?;
            self.field(MATRIX, spot)?;
        }
        let mut children = 1 + 2 * bones;
        for _ in 0..bones {
            self.bone(bones, spot)?;
            let count = self.number_field(UINT32, spot)?;
            for _ in 0..count {
                self.bone(bones, spot)?;
            }
            children += 2 + count;
        }
        let meshes = self.number_field(UINT32, spot)?;
        for _ in 0..meshes {
            let parts = self.mesh(bones, spot)?;
            children += 6 + 8 * parts;
        }
        self.bone(bones, spot)?;
        self.any_object(spot)?;
        Some(children + 3)
    }

    /// Name, parent bone, bounds, tag, part count and parts; answers the number of parts.
    fn mesh(&mut self, bones: u32, spot: Spot) -> Option<u32> {
        self.object(Declared::Kind(STRING), spot)?;
        self.bone(bones, spot)?;
        self.field(VECTOR3, spot)?;
        self.field(SINGLE, spot)?;
        self.any_object(spot)?;
        let parts = self.number_field(UINT32, spot)?;
        for _ in 0..parts {
            self.part(spot)?;
        }
        Some(parts)
    }

    /// Four numbers, a tag and references to a vertex buffer, an index buffer and an effect.
    fn part(&mut self, spot: Spot) -> Option<()> {
        for _ in 0..4 {
            self.number_field(UINT32, spot)?;
        }
        self.any_object(spot)?;
        self.reference(u32::from(VERTEX_BUFFER), spot)?;
        self.reference(u32::from(INDEX_BUFFER), spot)?;
        self.reference(NO_KIND, spot)
    }

    /// A bone reference: 0 or a bone from 1 to the last.
    #[inline(always)]
    fn bone(&mut self, bones: u32, spot: Spot) -> Option<()> {
        self.room(spot)?;
        let start = self.cursor.at;
        let bone = if bones >= BONES_FOR_FOUR_BYTES {
            self.cursor.number()?
        } else if let Some(&bone) = self.cursor.file.get(start) {
            self.cursor.at += 1;
            u32::from(bone)
        } else {
            return self.cursor.refuse(PAST_END, start);
        };
        if bone > bones {
            return self.cursor.refuse(BAD_VALUE, start);
        }
        self.leaf(BONE_REFERENCE, start, spot, 0);
        Some(())
    }
}
