//! Models: bones, meshes and their parts.

use super::buffers::{IndexBuffer, VertexBuffer};
use crate::fields::{Fields, View};

/// A model: bones in a tree, and meshes that hang on them.
///
/// A bone is named by its place in [`bones`](Model::bones), counted from 0.
///
/// ```
/// let mut file = b"XNBw\x05\x00....\x02".to_vec();
/// for name in ["ModelReader", "StringReader"] {
///     let name = format!("Microsoft.Xna.Framework.Content.{name}");
///     file.push(name.len() as u8);
///     file.extend_from_slice(name.as_bytes());
///     file.extend_from_slice(&[0; 4]);
/// }
/// // No shared object; a model of one bone without children.
/// file.extend_from_slice(b"\x00\x01\x01\x00\x00\x00\x02\x03hub");
/// file.extend_from_slice(&[0; 64]);
/// file.extend_from_slice(b"\x00\x00\x00\x00\x00");
/// // One mesh, on that bone, of one part.
/// file.extend_from_slice(b"\x01\x00\x00\x00\x02\x06needle\x01");
/// file.extend_from_slice(&[0; 16]);
/// file.extend_from_slice(b"\x00\x01\x00\x00\x00");
/// for number in [0, 3, 0, 1_u32] {
///     file.extend_from_slice(&number.to_le_bytes());
/// }
/// // No tag, no buffers and no effect; the root bone, and no tag.
/// file.extend_from_slice(b"\x00\x00\x00\x00\x01\x00");
/// let length = file.len() as u32;
/// file[6..10].copy_from_slice(&length.to_le_bytes());
///
/// let table = xnb::Table::load(&file)?;
/// let model = table.model(0)?;
/// let bone = model.bones().next().expect("a bone");
/// assert_eq!((bone.name, bone.parent), (Some("hub"), None));
/// assert_eq!(bone.children().len(), 0);
/// assert_eq!(model.root, Some(0));
/// for mesh in model.meshes() {
///     assert_eq!((mesh.name, mesh.bone), (Some("needle"), Some(0)));
///     let part = mesh.parts().next().expect("a part");
///     assert_eq!((part.vertex_count, part.primitive_count), (3, 1));
///     assert!(part.vertex_buffer().is_none());
/// }
/// # Ok::<(), xnb::Refused>(())
/// ```
#[derive(Clone, Copy, Debug)]
pub struct Model<'t, 'f> {
    /// The root bone.
    pub root: Option<usize>,
    /// The row number of its tag.
    pub tag: u32,
    bone_count: u32,
    /// Names and transforms.
    bones: Fields<'t, 'f>,
    /// Parents and children.
    links: Fields<'t, 'f>,
    mesh_count: u32,
    meshes: Fields<'t, 'f>,
}

impl<'t, 'f> Model<'t, 'f> {
    pub(super) fn take(mut fields: Fields<'t, 'f>) -> Model<'t, 'f> {
        let bone_count = fields.u32();
        let bones = fields;
        for _ in 0..bone_count {
            fields.skip(2);
        }
        let links = fields;
        for _ in 0..bone_count {
            fields.skip(1);
            let children = fields.u32();
            fields.skip(children);
        }
        let mesh_count = fields.u32();
        let meshes = fields;
        for _ in 0..mesh_count {
            Mesh::take(&mut fields);
        }
        Model {
            root: fields.bone(),
            tag: fields.number(),
            bone_count,
            bones,
            links,
            mesh_count,
            meshes,
        }
    }

    /// The bones in file order.
    pub fn bones(&self) -> impl ExactSizeIterator<Item = Bone<'t, 'f>> {
        let (mut bones, mut links) = (self.bones, self.links);
        (0..self.bone_count).map(move |_| Bone::take(&mut bones, &mut links))
    }

    /// The meshes in file order.
    pub fn meshes(&self) -> impl ExactSizeIterator<Item = Mesh<'t, 'f>> {
        let mut fields = self.meshes;
        (0..self.mesh_count).map(move |_| Mesh::take(&mut fields))
    }
}

/// A bone of a model.
#[derive(Clone, Copy, Debug)]
pub struct Bone<'t, 'f> {
    /// Its name, unless it is null.
    pub name: Option<&'f str>,
    /// A matrix, row by row.
    pub transform: [f32; 16],
    /// The place of its parent among the bones.
    pub parent: Option<usize>,
    child_count: u32,
    children: Fields<'t, 'f>,
}

impl<'t, 'f> Bone<'t, 'f> {
    fn take(bones: &mut Fields<'t, 'f>, links: &mut Fields<'t, 'f>) -> Bone<'t, 'f> {
        let (name, transform) = (bones.text(), bones.floats());
        let (parent, child_count) = (links.bone(), links.u32());
        let children = *links;
        links.skip(child_count);
        Bone {
            name,
            transform,
            parent,
            child_count,
            children,
        }
    }

    /// The places of its children among the bones; a child may be null.
    pub fn children(&self) -> impl ExactSizeIterator<Item = Option<usize>> + use<'t, 'f> {
        let mut fields = self.children;
        (0..self.child_count).map(move |_| fields.bone())
    }
}

/// A mesh of a model.
#[derive(Clone, Copy, Debug)]
pub struct Mesh<'t, 'f> {
    /// Its name, unless it is null.
    pub name: Option<&'f str>,
    /// The place of the bone that it hangs on among the bones.
    pub bone: Option<usize>,
    /// The centre of the sphere around it.
    pub center: [f32; 3],
    /// The radius of that sphere.
    pub radius: f32,
    /// The row number of its tag.
    pub tag: u32,
    part_count: u32,
    parts: Fields<'t, 'f>,
}

impl<'t, 'f> Mesh<'t, 'f> {
    fn take(fields: &mut Fields<'t, 'f>) -> Mesh<'t, 'f> {
        let (name, bone, center) = (fields.text(), fields.bone(), fields.floats());
        let [radius] = fields.floats();
        let (tag, part_count) = (fields.number(), fields.u32());
        let parts = *fields;
        for _ in 0..part_count {
            fields.skip(PART_FIELDS);
        }
        Mesh {
            name,
            bone,
            center,
            radius,
            tag,
            part_count,
            parts,
        }
    }

    /// The parts in file order.
    pub fn parts(&self) -> impl ExactSizeIterator<Item = MeshPart<'t, 'f>> {
        let mut fields = self.parts;
        (0..self.part_count).map(move |_| MeshPart::take(&mut fields))
    }
}

const PART_FIELDS: u32 = 8;

/// A part of a mesh: a stretch of a vertex buffer and of an index buffer.
#[derive(Clone, Copy, Debug)]
pub struct MeshPart<'t, 'f> {
    /// The first of its vertices in the vertex buffer.
    pub vertex_offset: u32,
    /// The number of its vertices.
    pub vertex_count: u32,
    /// The first of its indices in the index buffer.
    pub start_index: u32,
    /// The number of its triangles.
    pub primitive_count: u32,
    /// The row number of its tag.
    pub tag: u32,
    /// The resource id of its vertex buffer.
    pub vertex_buffer_id: Option<u32>,
    /// The resource id of its index buffer.
    pub index_buffer_id: Option<u32>,
    /// The resource id of its effect, which is a null.
    pub effect_id: Option<u32>,
    view: View<'t, 'f>,
}

impl<'t, 'f> MeshPart<'t, 'f> {
    fn take(fields: &mut Fields<'t, 'f>) -> MeshPart<'t, 'f> {
        MeshPart {
            vertex_offset: fields.u32(),
            vertex_count: fields.u32(),
            start_index: fields.u32(),
            primitive_count: fields.u32(),
            tag: fields.number(),
            vertex_buffer_id: fields.resource_id(),
            index_buffer_id: fields.resource_id(),
            effect_id: fields.resource_id(),
            view: fields.view,
        }
    }

    /// Its vertex buffer; nothing if the reference is null or names a null.
    pub fn vertex_buffer(&self) -> Option<VertexBuffer<'t, 'f>> {
        self.resource(self.vertex_buffer_id).map(VertexBuffer::take)
    }

    /// Its index buffer; nothing if the reference is null or names a null.
    pub fn index_buffer(&self) -> Option<IndexBuffer<'f>> {
        self.resource(self.index_buffer_id).map(IndexBuffer::take)
    }

    /// The fields of a resource that is not null; a load has judged its type.
    fn resource(&self, id: Option<u32>) -> Option<Fields<'t, 'f>> {
        let number = self.view.present_resource(id)?;
        Some(self.view.fields(number))
    }
}
