//! Index buffers, vertex buffers and their declarations.

use super::codes::{ElementFormat, ElementUsage};
use crate::fields::Fields;
use crate::numbers::{numbers, Number};
use crate::picture::half;

/// An index buffer: numbers of two bytes or of four.
#[derive(Clone, Copy, Debug, PartialEq, Eq)]
#[cfg_attr(feature = "serde", derive(serde::Serialize))]
pub struct IndexBuffer<'f> {
    /// Whether an index has two bytes.
    pub is_16_bit: bool,
    /// The bytes of all indices.
    pub data: &'f [u8],
}

impl<'f> IndexBuffer<'f> {
    pub(super) fn take(mut fields: Fields<'_, 'f>) -> IndexBuffer<'f> {
        let is_16_bit = fields.flag();
        // The size says no more than the data.
        fields.skip(1);
        let data = fields.bytes();
        IndexBuffer { is_16_bit, data }
    }

    /// The indices in file order.
    pub fn indices(&self) -> impl ExactSizeIterator<Item = u32> + 'f {
        let size = if self.is_16_bit { 2 } else { 4 };
        self.data.chunks_exact(size).map(|bytes| {
            let add = |number: u32, byte: &u8| number << 8 | u32::from(*byte);
            bytes.iter().rev().fold(0, add)
        })
    }
}

/// A vertex buffer.
#[derive(Clone, Copy, Debug)]
pub struct VertexBuffer<'t, 'f> {
    /// What a vertex consists of.
    pub declaration: VertexDeclaration<'t, 'f>,
    /// The number of its vertices.
    pub vertex_count: u32,
    /// The bytes of all vertices, stride times vertex count.
    pub data: &'f [u8],
}

impl<'t, 'f> VertexBuffer<'t, 'f> {
    pub(super) fn take(mut fields: Fields<'t, 'f>) -> VertexBuffer<'t, 'f> {
        let declaration = fields.number();
        VertexBuffer {
            declaration: VertexDeclaration::take(fields.view.fields(declaration)),
            vertex_count: fields.u32(),
            data: fields.bytes(),
        }
    }

    /// The bytes of each vertex in file order.
    pub fn vertices(&self) -> impl ExactSizeIterator<Item = &'f [u8]> {
        let (data, stride) = (self.data, self.declaration.stride as usize);
        // A vertex of no byte needs no data.
        (0..self.vertex_count).map(move |vertex| &data[vertex as usize * stride..][..stride])
    }

    /// Where each vertex is, in file order, by its first element for that; nothing if the declaration has none, or one
    /// that does not lie in the vertex.
    ///
    /// ```
    /// # let path = corpus::folder::folder().join("ok-kind-39-vertex-buffer.xnb");
    /// # let file = std::fs::read(path).expect("a kept file");
    /// let table = xnb::Table::load(&file)?;
    /// let buffer = table.vertex_buffer(0)?;
    /// let positions = buffer.positions().expect("an element that says where");
    /// assert_eq!(positions.len(), buffer.vertices().len());
    /// # Ok::<(), xnb::Refused>(())
    /// ```
    pub fn positions(&self) -> Option<impl ExactSizeIterator<Item = [f32; 3]> + use<'t, 'f>> {
        let mut elements = self.declaration.elements();
        let element = elements.find(|it| it.usage == ElementUsage::Position)?;
        let end = (element.offset as usize).checked_add(element.format.bytes())?;
        if end > self.declaration.stride as usize {
            return None;
        }
        let (data, stride) = (self.data, self.declaration.stride as usize);
        let vertices =
            (0..self.vertex_count).map(move |it| &data[it as usize * stride..][..stride]);
        Some(vertices.map(move |vertex| {
            let [x, y, z, _] = element.numbers(vertex).expect("an element in its vertex");
            [x, y, z]
        }))
    }
}

/// A vertex declaration.
#[derive(Clone, Copy, Debug)]
pub struct VertexDeclaration<'t, 'f> {
    /// The number of bytes of a vertex.
    pub stride: u32,
    count: u32,
    elements: Fields<'t, 'f>,
}

impl<'t, 'f> VertexDeclaration<'t, 'f> {
    pub(super) fn take(mut fields: Fields<'t, 'f>) -> VertexDeclaration<'t, 'f> {
        VertexDeclaration {
            stride: fields.u32(),
            count: fields.u32(),
            elements: fields,
        }
    }

    /// The elements of a vertex in file order.
    pub fn elements(&self) -> impl ExactSizeIterator<Item = VertexElement> + use<'t, 'f> {
        let mut fields = self.elements;
        (0..self.count).map(move |_| VertexElement::take(&mut fields))
    }
}

/// An element of a vertex.
#[derive(Clone, Copy, Debug, PartialEq, Eq)]
#[cfg_attr(feature = "serde", derive(serde::Serialize))]
pub struct VertexElement {
    /// Its first byte in the vertex.
    pub offset: u32,
    /// How it is stored.
    pub format: ElementFormat,
    /// What it is for.
    pub usage: ElementUsage,
    /// Which one it is of several for the same use, counted from 0.
    pub usage_index: u32,
}

impl VertexElement {
    /// The numbers of the element in the bytes of a vertex, 0, 0, 0 and 1 where it has fewer than four; nothing if it
    /// does not lie in the vertex. Numbers that mean -1 to 1 are scaled to that, and those of a colour to 0 to 1.
    ///
    /// ```
    /// use xnb::meshes::{ElementFormat, ElementUsage, VertexElement};
    ///
    /// let element = VertexElement {
    ///     offset: 2,
    ///     format: ElementFormat::Short2,
    ///     usage: ElementUsage::Position,
    ///     usage_index: 0,
    /// };
    /// assert_eq!(element.numbers(&[0, 0, 7, 0, 0xFF, 0xFF]), Some([7.0, -1.0, 0.0, 1.0]));
    /// assert_eq!(element.numbers(&[0, 0, 7, 0, 0xFF]), None);
    /// ```
    pub fn numbers(&self, vertex: &[u8]) -> Option<[f32; 4]> {
        let bytes = vertex.get(self.offset as usize..)?;
        let bytes = bytes.get(..self.format.bytes())?;
        let two = |[x, y]: [f32; 2]| [x, y, 0.0, 1.0];
        let short = |bits: i16| f32::from(bits);
        let normal = |bits: i16| (f32::from(bits) / 32_767.0).max(-1.0);
        Some(match self.format {
            ElementFormat::Single => two([f32::of_bytes(bytes), 0.0]),
            ElementFormat::Vector2 => two(numbers(bytes)),
            ElementFormat::Vector3 => {
                let [x, y, z] = numbers(bytes);
                [x, y, z, 1.0]
            }
            ElementFormat::Vector4 => numbers(bytes),
            ElementFormat::Color => numbers(bytes).map(|it: u8| f32::from(it) / 255.0),
            ElementFormat::Byte4 => numbers(bytes).map(|it: u8| f32::from(it)),
            ElementFormat::Short2 => two(numbers(bytes).map(short)),
            ElementFormat::Short4 => numbers(bytes).map(short),
            ElementFormat::NormalizedShort2 => two(numbers(bytes).map(normal)),
            ElementFormat::NormalizedShort4 => numbers(bytes).map(normal),
            ElementFormat::HalfVector2 => two(numbers(bytes).map(half)),
            ElementFormat::HalfVector4 => numbers(bytes).map(half),
        })
    }

    fn take(fields: &mut Fields) -> VertexElement {
        let listed = "a load takes listed codes only";
        VertexElement {
            offset: fields.u32(),
            format: ElementFormat::of_code(fields.i32()).expect(listed),
            usage: ElementUsage::of_code(fields.i32()).expect(listed),
            usage_index: fields.u32(),
        }
    }
}

#[cfg(test)]
mod tests {
    use super::*;

    /// The numbers of an element of this format that starts at byte 1.
    fn told(format: ElementFormat, bytes: &[u8]) -> Option<[f32; 4]> {
        let element = VertexElement {
            offset: 1,
            format,
            usage: ElementUsage::Position,
            usage_index: 0,
        };
        let vertex = [&[9], bytes].concat();
        assert_eq!(element.numbers(&vertex[..vertex.len() - 1]), None);
        assert_eq!(bytes.len(), format.bytes());
        element.numbers(&vertex)
    }

    #[test]
    fn elements_of_each_format_are_read() {
        use ElementFormat::*;
        let singles = |numbers: &[f32]| -> Vec<u8> {
            numbers.iter().flat_map(|it| it.to_le_bytes()).collect()
        };
        let expected = |numbers| Some(numbers);
        assert_eq!(
            told(Single, &singles(&[2.5])),
            expected([2.5, 0.0, 0.0, 1.0])
        );
        assert_eq!(
            told(Vector2, &singles(&[2.5, -1.0])),
            expected([2.5, -1.0, 0.0, 1.0])
        );
        assert_eq!(
            told(Vector3, &singles(&[2.5, -1.0, 4.0])),
            expected([2.5, -1.0, 4.0, 1.0])
        );
        assert_eq!(
            told(Vector4, &singles(&[2.5, -1.0, 4.0, 0.5])),
            expected([2.5, -1.0, 4.0, 0.5])
        );
        assert_eq!(
            told(Color, &[255, 0, 51, 255]),
            expected([1.0, 0.0, 0.2, 1.0])
        );
        assert_eq!(
            told(Byte4, &[255, 0, 51, 2]),
            expected([255.0, 0.0, 51.0, 2.0])
        );
        let short = [0x01, 0x80, 0xFF, 0x7F];
        assert_eq!(
            told(Short2, &short),
            expected([-32_767.0, 32_767.0, 0.0, 1.0])
        );
        assert_eq!(
            told(NormalizedShort2, &short),
            expected([-1.0, 1.0, 0.0, 1.0])
        );
        let shorts = [0x01, 0x80, 0xFF, 0x7F, 0, 0, 0x00, 0x80];
        assert_eq!(
            told(Short4, &shorts),
            expected([-32_767.0, 32_767.0, 0.0, -32_768.0])
        );
        assert_eq!(
            told(NormalizedShort4, &shorts),
            expected([-1.0, 1.0, 0.0, -1.0])
        );
        // 3400 is 0.25, BC00 is -1, 4000 is 2.
        let halves = [0x00, 0x34, 0x00, 0xBC, 0x00, 0x40, 0, 0];
        assert_eq!(
            told(HalfVector2, &halves[..4]),
            expected([0.25, -1.0, 0.0, 1.0])
        );
        assert_eq!(told(HalfVector4, &halves), expected([0.25, -1.0, 2.0, 0.0]));
    }
}
