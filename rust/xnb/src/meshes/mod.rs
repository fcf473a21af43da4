//! Gauge meshes: index buffers, vertex declarations, vertex buffers and models of a loaded file.
//!
//! A table has them as rows, field by field ([`Grid::children`]); here the fields are put together. Elements, bones,
//! meshes and parts have no rows of their own, and iterators give them in file order.
//!
//! ```
//! use xnb::meshes::{ElementFormat, ElementUsage};
//!
//! let mut file = b"XNBw\x05\x00....\x02".to_vec();
//! for name in ["VertexBufferReader", "IndexBufferReader"] {
//!     let name = format!("Microsoft.Xna.Framework.Content.{name}");
//!     file.push(name.len() as u8);
//!     file.extend_from_slice(name.as_bytes());
//!     file.extend_from_slice(&[0; 4]);
//! }
//! // One shared object; the primary object, a vertex buffer: stride 8, one element, two vertices.
//! file.extend_from_slice(b"\x01\x01");
//! for number in [8, 1, 0, 1, 2, 0, 2_u32] {
//!     file.extend_from_slice(&number.to_le_bytes());
//! }
//! file.extend_from_slice(b"........::::::::");
//! // The shared object, an index buffer of three indices of two bytes.
//! file.extend_from_slice(b"\x02\x01\x06\x00\x00\x00\x00\x00\x01\x00\x00\x01");
//! let length = file.len() as u32;
//! file[6..10].copy_from_slice(&length.to_le_bytes());
//!
//! let table = xnb::Table::load(&file)?;
//! let buffer = table.vertex_buffer(0)?;
//! let element = buffer.declaration.elements().next().expect("an element");
//! assert_eq!(element.format, ElementFormat::Vector2);
//! assert_eq!(element.usage, ElementUsage::TextureCoordinate);
//! assert!(buffer.vertices().eq([b"........", b"::::::::"]));
//!
//! let shared = table.resource(1).expect("a shared object");
//! let buffer = table.index_buffer(shared)?;
//! assert!(buffer.indices().eq([0, 1, 256]));
//! // Another row is no index buffer.
//! assert_eq!(table.index_buffer(0).unwrap_err().refusal, xnb::Refusal::OtherKind);
//! # Ok::<(), xnb::Refused>(())
//! ```

mod buffers;
mod codes;
mod model;

pub use buffers::{IndexBuffer, VertexBuffer, VertexDeclaration, VertexElement};
pub use codes::{ElementFormat, ElementUsage};
pub use model::{Bone, Mesh, MeshPart, Model};

use crate::kind::Kind;
use crate::refusal::Refused;
use crate::shape::Shaped;
use crate::table::Grid;

impl<'f, S: Shaped, W: AsRef<[u32]>> Grid<'f, S, W> {
    /// The model of a row, which takes one step for each of its fields.
    pub fn model(&self, number: u32) -> Result<Model<'_, 'f>, Refused> {
        self.fields(number, Kind::Model).map(Model::take)
    }

    /// The index buffer of a row.
    pub fn index_buffer(&self, number: u32) -> Result<IndexBuffer<'f>, Refused> {
        self.fields(number, Kind::IndexBuffer)
            .map(IndexBuffer::take)
    }

    /// The vertex buffer of a row.
    pub fn vertex_buffer(&self, number: u32) -> Result<VertexBuffer<'_, 'f>, Refused> {
        self.fields(number, Kind::VertexBuffer)
            .map(VertexBuffer::take)
    }

    /// The vertex declaration of a row, that of a vertex buffer too.
    pub fn vertex_declaration(&self, number: u32) -> Result<VertexDeclaration<'_, 'f>, Refused> {
        self.fields(number, Kind::VertexDeclaration)
            .map(VertexDeclaration::take)
    }
}
