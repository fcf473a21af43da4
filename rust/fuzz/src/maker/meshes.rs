//! Random meshes, written in file order.

use super::{Maker, Plan, DEEPEST};
use crate::shape::{Shape, INDEX_BUFFER, MODEL, OBJECT, STRING, VERTEX_BUFFER, VERTEX_DECLARATION};
use corpus::meshes::{declaration, index_buffer, model, vertex_buffer};
use corpus::meshes::{Bone, Element, Mesh, MeshPart, Model};
use corpus::values::{faulty, fixed, null, object, with_child};
use corpus::writer::Value;

pub const MESHES: [u32; 4] = [INDEX_BUFFER, VERTEX_DECLARATION, VERTEX_BUFFER, MODEL];

impl Maker<'_> {
    pub(super) fn index_buffer(&mut self) -> Value {
        self.rows_left -= 3;
        let is_16_bit = self.random.chance(50);
        let multiple = if is_16_bit { 2 } else { 4 };
        let count = self.random.pick(&[0, 1, 1, 2, 3, 9]);
        index_buffer(is_16_bit, multiple * count)
    }

    fn some_elements(&mut self) -> Vec<Element> {
        let count = self.random.pick(&[0, 1, 1, 2, 3]);
        self.rows_left -= 2 + 4 * count;
        let mut elements = Vec::new();
        for _ in 0..count {
            elements.push(Element {
                offset: self.some_number(),
                format: self.random.between(0, 11),
                usage: self.random.between(0, 12),
                usage_index: self.some_number(),
            });
        }
        elements
    }

    pub(super) fn vertex_declaration(&mut self) -> Value {
        let stride = self.some_number();
        declaration(stride, &self.some_elements())
    }

    pub(super) fn vertex_buffer(&mut self) -> Value {
        self.rows_left -= 3;
        let stride = self.random.pick(&[0, 1, 3, 4, 12, 20, u32::MAX]);
        let vertices = match stride {
            0 => self.some_number(),
            u32::MAX => 0,
            _ => self.random.pick(&[0, 1, 2, 5]),
        };
        vertex_buffer(stride, &self.some_elements(), vertices)
    }

    /// Any number, often an edge.
    fn some_number(&mut self) -> u32 {
        let any = self.random.number() as u32;
        self.random.pick(&[0, 1, 12, 255, 1 << 31, u32::MAX, any])
    }

    pub(super) fn model(&mut self, depth: u32) -> Value {
        let most = (self.rows_left / 6).max(0) as usize;
        let count = self.random.pick(&[0, 0, 1, 1, 2, 3, 6]).min(most);
        let mut bones = Vec::new();
        for _ in 0..count {
            bones.push(self.bone(count, depth));
        }
        let most = (self.rows_left / 8).max(0) as usize;
        let mut meshes = Vec::new();
        for _ in 0..self.random.pick(&[0, 1, 1, 2, 3]).min(most) {
            meshes.push(self.mesh(count, depth));
        }
        self.rows_left -= 4;
        model(Model {
            bones,
            meshes,
            root: self.bone_number(count),
            tag: self.tag(depth),
        })
    }

    /// Null, or any bone.
    fn bone_number(&mut self, bones: usize) -> u32 {
        self.random.between(0, bones as u32)
    }

    fn tag(&mut self, depth: u32) -> Value {
        self.object(&Shape::plain(OBJECT), depth + 1)
    }

    fn text_object(&mut self, depth: u32) -> Value {
        self.object(&Shape::plain(STRING), depth + 1)
    }

    fn bone(&mut self, bones: usize, depth: u32) -> Bone {
        let name = self.text_object(depth);
        let transform = fixed(26, &self.random.bytes(64));
        let parent = self.bone_number(bones);
        let count = self.random.pick(&[0, 0, 1, 2, 4]);
        self.rows_left -= 3 + count;
        let children = (0..count).map(|_| self.bone_number(bones)).collect();
        Bone {
            name,
            transform,
            parent,
            children,
        }
    }

    fn mesh(&mut self, bones: usize, depth: u32) -> Mesh {
        self.rows_left -= 4;
        let name = self.text_object(depth);
        let bone = self.bone_number(bones);
        let tag = self.tag(depth);
        let most = (self.rows_left / 8).max(0) as usize;
        let mut parts = Vec::new();
        for _ in 0..self.random.pick(&[0, 1, 2, 3]).min(most) {
            parts.push(self.part(depth));
        }
        Mesh {
            name,
            bone,
            center: [f32::MIN, -0.0, f32::NAN],
            radius: f32::NEG_INFINITY,
            tag,
            parts,
        }
    }

    fn part(&mut self, depth: u32) -> MeshPart {
        self.rows_left -= 7;
        let numbers = std::array::from_fn(|_| self.some_number());
        let tag = self.tag(depth);
        MeshPart {
            numbers,
            tag,
            vertices: self.reference(Plan::Vertices),
            indices: self.reference(Plan::Indices),
            effect: self.reference(Plan::Effect),
        }
    }

    /// A model as the primary object, or null where the list of readers is full.
    pub(super) fn model_object(&mut self) -> Value {
        match self.type_id(&Shape::plain(MODEL)) {
            Some(id) => object(id, self.model(1)),
            None => null(),
        }
    }

    /// One of the four at the deepest depth, so that its first field is too deep, or a vertex buffer above it, so that the
    /// first field of its declaration is.
    pub(super) fn too_deep_mesh(&mut self) -> Value {
        self.list_containers();
        let kind = self.random.pick(&MESHES);
        let Some(id) = self.type_id(&Shape::plain(kind)) else {
            return null();
        };
        let raw = match kind {
            INDEX_BUFFER => self.index_buffer(),
            VERTEX_DECLARATION => self.vertex_declaration(),
            VERTEX_BUFFER => self.vertex_buffer(),
            _ => corpus::meshes::empty_model(null()),
        };
        if kind == VERTEX_BUFFER && self.random.chance(50) {
            let raw = with_child(raw, 0, |child| with_child(child, 0, faulty));
            return self.bury(DEEPEST - 1, object(id, raw));
        }
        self.bury(DEEPEST, object(id, with_child(raw, 0, faulty)))
    }
}
