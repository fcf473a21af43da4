//! Models.

use crate::inputs::{input, Input};
use corpus::meshes::{
    index_buffer, model, plain_bone, plain_mesh, plain_part, vertex_buffer, Element, Model,
    MESH_READERS,
};
use corpus::values::{file, null, object};
use corpus::writer::Value;

pub fn inputs() -> Vec<Input> {
    vec![
        gauge(10_000, 1000, 60),
        gauge(10_000, 7000, 60),
        gauge(100_000, 1, 60),
        gauge(3, 1, 254),
        gauge(3, 1, 255),
    ]
}

/// A model of so many parts, ten to a mesh, which share one vertex buffer and one index buffer.
fn gauge(vertices: u32, parts: usize, bones: usize) -> Input {
    let meshes = (0..parts).step_by(10).map(|first| {
        let count = 10.min(parts - first);
        plain_mesh(1, vec![plain_part(1, 2, 0); count])
    });
    let gauge = Model {
        bones: vec![plain_bone(1.0, 1); bones],
        meshes: meshes.collect(),
        root: 1,
        tag: null(),
    };
    let shared = vec![
        object(3, some_vertices(vertices)),
        object(4, index_buffer(true, 6 * vertices as usize)),
    ];
    let primary = object(1, model(gauge));
    let name = format!("{vertices} vertices, {parts} parts, {bones} bones");
    input("meshes", name, file(&MESH_READERS, primary, shared))
}

/// Positions, normals and texture coordinates.
fn some_vertices(count: u32) -> Value {
    let element = |offset, format, usage| Element {
        offset,
        format,
        usage,
        usage_index: 0,
    };
    let elements = [element(0, 2, 0), element(12, 2, 3), element(24, 1, 2)];
    vertex_buffer(32, &elements, count)
}
