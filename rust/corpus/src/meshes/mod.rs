//! Gauge meshes (Req 05): index buffers, vertex declarations, vertex buffers and models to be written.

mod broken;
mod samples;

pub use samples::{gauge_file, MESH_READERS};

use crate::sample::{in_topic, Sample};
use crate::values::{boolean, matrix, reference, single, uint32, value, vector3};
use crate::writer::{Part, Role, Value};

/// The samples that the writer makes; `literal/meshes.txt` has the others.
pub fn samples() -> Vec<Sample> {
    let mut samples = samples::samples();
    samples.extend(broken::samples());
    in_topic("meshes", samples).collect()
}

/// A raw value of kind 6 in a field of this role.
pub fn number(role: Role, number: u32) -> Value {
    value(6, vec![Part::Field(role, number.to_le_bytes().to_vec())])
}

/// A count, which is not judged by itself.
pub fn count(count: u32) -> Value {
    number(Role::ElementCount, count)
}

/// Data bytes, which have a row of their own.
pub fn data(bytes: &[u8]) -> Value {
    value(41, vec![Part::Field(Role::DataBytes, bytes.to_vec())])
}

/// Bytes that differ from each other.
pub fn some_data(size: usize) -> Value {
    data(
        &(0..size)
            .map(|place| place as u8 ^ 0x5A)
            .collect::<Vec<u8>>(),
    )
}

fn with_children(kind: u32, children: Vec<Value>) -> Value {
    value(kind, children.into_iter().map(Part::Child).collect())
}

pub fn index_buffer(is_16_bit: bool, size: usize) -> Value {
    let multiple = if is_16_bit { 2 } else { 4 };
    let fields = vec![
        boolean(is_16_bit),
        number(Role::IndexSize(multiple), size as u32),
        some_data(size),
    ];
    with_children(37, fields)
}

/// An element of a vertex declaration.
#[derive(Clone, Copy, Debug, Default)]
pub struct Element {
    pub offset: u32,
    pub format: u32,
    pub usage: u32,
    pub usage_index: u32,
}

pub fn declaration(stride: u32, elements: &[Element]) -> Value {
    let code = |role, code: u32| value(5, vec![Part::Field(role, code.to_le_bytes().to_vec())]);
    let mut fields = vec![number(Role::Stride, stride), count(elements.len() as u32)];
    for element in elements {
        fields.push(uint32(element.offset));
        fields.push(code(Role::ElementFormat, element.format));
        fields.push(code(Role::ElementUsage, element.usage));
        fields.push(uint32(element.usage_index));
    }
    with_children(38, fields)
}

/// A vertex buffer with as many vertices as it says.
pub fn vertex_buffer(stride: u32, elements: &[Element], vertices: u32) -> Value {
    let fields = vec![
        declaration(stride, elements),
        number(Role::VertexCount(stride), vertices),
        some_data((stride * vertices) as usize),
    ];
    with_children(39, fields)
}

/// A bone reference as a model of so many bones has it.
pub fn bone(bones: usize, reference: u32) -> Value {
    let bytes = reference.to_le_bytes();
    let width = if bones < 255 { 1 } else { 4 };
    let role = Role::BoneReference(bones as u32);
    value(42, vec![Part::Field(role, bytes[..width].to_vec())])
}

#[derive(Clone, Debug)]
pub struct Bone {
    pub name: Value,
    pub transform: Value,
    pub parent: u32,
    pub children: Vec<u32>,
}

#[derive(Clone, Debug)]
pub struct Mesh {
    pub name: Value,
    pub bone: u32,
    pub center: [f32; 3],
    pub radius: f32,
    pub tag: Value,
    pub parts: Vec<MeshPart>,
}

#[derive(Clone, Debug)]
pub struct MeshPart {
    /// Vertex offset, vertex number, start index, primitive count.
    pub numbers: [u32; 4],
    pub tag: Value,
    pub vertices: Value,
    pub indices: Value,
    pub effect: Value,
}

#[derive(Clone, Debug)]
pub struct Model {
    pub bones: Vec<Bone>,
    pub meshes: Vec<Mesh>,
    pub root: u32,
    pub tag: Value,
}

/// A bone without a name, whose transform is the same number sixteen times.
pub fn plain_bone(number: f32, parent: u32) -> Bone {
    Bone {
        name: crate::values::null(),
        transform: matrix([number; 16]),
        parent,
        children: vec![],
    }
}

/// A part without a tag that names shared objects by their resource ids.
pub fn plain_part(vertices: u32, indices: u32, effect: u32) -> MeshPart {
    MeshPart {
        numbers: [0, 3, 0, 1],
        tag: crate::values::null(),
        vertices: reference(vertices),
        indices: reference(indices),
        effect: reference(effect),
    }
}

/// A mesh without a name and a tag.
pub fn plain_mesh(bone: u32, parts: Vec<MeshPart>) -> Mesh {
    Mesh {
        name: crate::values::null(),
        bone,
        center: [1.0, 2.0, 3.0],
        radius: 4.0,
        tag: crate::values::null(),
        parts,
    }
}

/// A model without bones and meshes.
pub fn empty_model(tag: Value) -> Value {
    model(Model {
        bones: vec![],
        meshes: vec![],
        root: 0,
        tag,
    })
}

pub fn model(model: Model) -> Value {
    let bones = model.bones.len();
    let mut fields = vec![count(bones as u32)];
    for bone in &model.bones {
        fields.push(bone.name.clone());
        fields.push(bone.transform.clone());
    }
    for this in &model.bones {
        fields.push(bone(bones, this.parent));
        fields.push(count(this.children.len() as u32));
        fields.extend(this.children.iter().map(|child| bone(bones, *child)));
    }
    fields.push(count(model.meshes.len() as u32));
    for mesh in model.meshes {
        fields.extend(mesh_fields(bones, mesh));
    }
    fields.push(bone(bones, model.root));
    fields.push(model.tag);
    with_children(40, fields)
}

fn mesh_fields(bones: usize, mesh: Mesh) -> Vec<Value> {
    let mut fields = vec![
        mesh.name,
        bone(bones, mesh.bone),
        vector3(mesh.center),
        single(mesh.radius),
        mesh.tag,
        count(mesh.parts.len() as u32),
    ];
    for part in mesh.parts {
        fields.extend(part.numbers.map(uint32));
        fields.extend([part.tag, part.vertices, part.indices, part.effect]);
    }
    fields
}
