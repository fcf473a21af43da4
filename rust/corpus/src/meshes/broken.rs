//! Meshes that must be refused, each with its number and place.

use super::samples::{bones_only, indices, mesh_file, vertices};
use super::*;
use crate::lawful::{buried, page_to};
use crate::readers::{list_of, INDEX_BUFFER, MODEL, VERTEX_BUFFER, VERTEX_DECLARATION};
use crate::sample::{refused, refused_bytes, Sample};
use crate::values::{
    bound_object, faulty, file, list, null, object, page, rectangle, text, text_bytes, texture,
    with_child,
};
use crate::writer::write;

pub fn samples() -> Vec<Sample> {
    let mut samples = bone_references();
    samples.extend(names());
    samples.extend(resource_ids());
    samples.extend(resource_types());
    samples.extend(orders());
    samples.extend(rows_left());
    samples.extend(too_deep());
    samples.extend(wrong_elements());
    samples.extend(claims());
    samples
}

/// A sample of one model whose fault is marked.
fn of_model(name: &str, number: u32, model: Value, shared: Vec<Value>) -> Sample {
    refused(name, number, mesh_file(object(1, model), shared))
}

fn of_meshes(meshes: Vec<Mesh>) -> Value {
    model(Model {
        bones: vec![],
        meshes,
        root: 0,
        tag: null(),
    })
}

/// 15 and 1 at bone references of one byte and of four: the first bone's parent, behind the bone count and two fields
/// of each bone.
fn bone_references() -> Vec<Sample> {
    let parent = |bones: usize, reference: Value| {
        with_child(bones_only(bones), 1 + 2 * bones, |_| reference)
    };
    let above = |name: &str, bones: usize, reference: u32| {
        let model = parent(bones, faulty(bone(bones, reference)));
        refused(name, 15, mesh_file(model, vec![]))
    };
    let three_bytes = vec![
        Part::Fault,
        Part::Field(Role::BoneReference(255), vec![255, 0, 0]),
        Part::End,
    ];
    let cut = parent(255, value(42, three_bytes));
    // A byte FF where four are due and the child count 1 behind it are read as 01FF hex.
    let one_byte = parent(255, faulty(bone(254, 255)));
    let one_byte = with_child(one_byte, 2 + 2 * 255, |_| count(1));
    vec![
        above("bone-parent-255-of-254", 254, 255),
        above("bone-parent-256-of-255", 255, 256),
        above("bone-parent-ffffffff-of-255", 255, u32::MAX),
        refused("bone-parent-of-four-bytes-cut", 1, mesh_file(cut, vec![])),
        refused(
            "bone-parent-of-one-byte-for-four",
            15,
            mesh_file(one_byte, vec![]),
        ),
    ]
}

/// 14: names are declared String.
fn names() -> Vec<Sample> {
    let wrong = || faulty(bound_object(4, index_buffer(true, 0)));
    let mut bone = plain_bone(1.0, 0);
    bone.name = wrong();
    let bones = model(Model {
        bones: vec![plain_bone(1.0, 0), bone],
        meshes: vec![],
        root: 0,
        tag: null(),
    });
    let mut mesh = plain_mesh(0, vec![]);
    mesh.name = wrong();
    let mut broken_text = plain_mesh(0, vec![]);
    broken_text.name = bound_object(2, faulty(text_bytes(&[0xFF])));
    let mut no_reader = plain_mesh(0, vec![]);
    no_reader.tag = faulty(object(8, text("")));
    vec![
        of_model("bone-name-that-is-no-text", 14, bones, vec![]),
        of_model(
            "mesh-name-that-is-no-text",
            14,
            of_meshes(vec![mesh]),
            vec![],
        ),
        of_model("mesh-name-of-ff", 15, of_meshes(vec![broken_text]), vec![]),
        of_model(
            "mesh-tag-past-the-list",
            13,
            of_meshes(vec![no_reader]),
            vec![],
        ),
    ]
}

/// A part of which one reference is the expected fault: 0 for vertices, 1 for indices, 2 for the effect.
fn part_with(fault: usize, ids: [u32; 3]) -> MeshPart {
    let mut references = ids.map(reference);
    references[fault] = faulty(references[fault].clone());
    let [vertices, indices, effect] = references;
    MeshPart {
        vertices,
        indices,
        effect,
        ..plain_part(0, 0, 0)
    }
}

const REFERENCES: [&str; 3] = ["vertex-reference", "index-reference", "effect-reference"];

/// 16: a resource id above the shared count, which is judged when it is read.
fn resource_ids() -> Vec<Sample> {
    let mut samples = Vec::new();
    for (fault, what) in REFERENCES.iter().enumerate() {
        let mut ids = [1, 2, 3];
        ids[fault] = 4;
        let part = part_with(fault, ids);
        let shared = vec![vertices(1), indices(true, 2), null()];
        let model = of_meshes(vec![plain_mesh(0, vec![part])]);
        samples.push(of_model(&format!("{what}-4-of-3"), 16, model, shared));
    }
    samples
}

/// 17: "resource types are checked as for pages", and no resource but null is an effect.
fn resource_types() -> Vec<Sample> {
    let resources: [(&str, Value); 7] = [
        ("vertex-buffer", vertices(1)),
        ("index-buffer", indices(true, 2)),
        ("declaration", object(7, declaration(0, &[]))),
        ("model", bones_only(0)),
        ("page", object(5, page_to("x", 0, 0))),
        ("texture", object(6, texture(0, 1, 1, 1))),
        ("text", object(2, text("x"))),
    ];
    let mut samples = Vec::new();
    for (fault, what) in REFERENCES.iter().enumerate() {
        for (position, (resource, _)) in resources.iter().enumerate() {
            if position == fault && fault < 2 {
                continue;
            }
            let mut ids = [1, 2, 0];
            ids[fault] = position as u32 + 1;
            let part = part_with(fault, ids);
            let model = of_meshes(vec![plain_mesh(0, vec![part])]);
            let shared = resources.iter().map(|(_, value)| value.clone()).collect();
            let sample = of_model(&format!("{what}-to-{resource}"), 17, model, shared);
            samples.push(sample);
        }
    }
    samples
}

/// 17 comes last, in row order.
fn orders() -> Vec<Sample> {
    let meshes = vec![
        plain_mesh(0, vec![plain_part(1, 2, 0), part_with(1, [1, 1, 1])]),
        plain_mesh(0, vec![plain_part(2, 2, 2)]),
    ];
    let parts = of_meshes(meshes);
    let page = page(
        null(),
        rectangle([0; 4]),
        faulty(reference(1)),
        reference(0),
    );
    let mut mesh = plain_mesh(0, vec![plain_part(2, 2, 2)]);
    mesh.tag = object(5, page);
    let tag = of_meshes(vec![mesh]);
    let wrong_effect = of_meshes(vec![plain_mesh(0, vec![plain_part(0, 0, 1)])]);
    let mut left_over = mesh_file(object(1, wrong_effect), vec![vertices(0)]);
    let end = write(&left_over).bytes.len();
    left_over.rest = vec![0];
    let shared = || vec![vertices(0), indices(false, 0)];
    vec![
        of_model("second-part-first-of-three-faults", 17, parts, shared()),
        of_model("page-in-a-mesh-tag-before-its-part", 17, tag, shared()),
        refused_bytes("before-a-wrong-effect", 20, end, write(&left_over).bytes),
    ]
}

/// 19 at an index buffer's fields and data, and 15 of its size before 19 of its data.
fn rows_left() -> Vec<Sample> {
    let size = number(Role::IndexSize(2), 3);
    let buffer = || index_buffer(true, 2);
    let no_size = with_child(buffer(), 1, faulty);
    let no_data = with_child(buffer(), 2, faulty);
    let wrong_size = with_child(buffer(), 1, |_| faulty(size));
    vec![
        as_row(1022, "index-size-without-a-row", 19, no_size),
        as_row(1021, "index-data-without-a-row", 19, no_data),
        as_row(
            1021,
            "index-size-before-its-data-has-no-row",
            15,
            wrong_size,
        ),
    ]
}

/// An index buffer whose own row, in a list, has this number.
fn as_row(row: usize, name: &str, number: u32, buffer: Value) -> Sample {
    let readers = [list_of("System.Object"), INDEX_BUFFER.to_string()];
    let mut elements = vec![null(); row - 1];
    elements.push(object(2, buffer));
    let file = file(&readers, object(1, list(elements)), vec![]);
    refused(name, number, file)
}

/// 18 at the start of a field that is deeper than 32: the first of each type, and the first of a raw declaration.
fn too_deep() -> Vec<Sample> {
    let deep = |name: &str, depth, reader: &str, raw: Value| {
        let readers = [list_of("System.Object"), reader.to_string()];
        let primary = buried(depth, object(2, raw));
        refused(name, 18, file(&readers, primary, vec![]))
    };
    let first = |raw| with_child(raw, 0, faulty);
    let vertices = || vertex_buffer(0, &[], 0);
    let stride = with_child(vertices(), 0, first);
    vec![
        deep("index-flag", 32, INDEX_BUFFER, first(index_buffer(true, 0))),
        deep("stride", 32, VERTEX_DECLARATION, first(declaration(0, &[]))),
        deep("stride-of-a-raw-declaration", 31, VERTEX_BUFFER, stride),
        deep("raw-declaration", 32, VERTEX_BUFFER, first(vertices())),
        deep("bone-count", 32, MODEL, first(empty_model(null()))),
    ]
}

/// 14 where one of the four is declared and another stands.
fn wrong_elements() -> Vec<Sample> {
    let wrong = |name: &str, target: &str, reader: &str, raw: Value| {
        let target = format!("Microsoft.Xna.Framework.Graphics.{target}");
        let readers = [list_of(&target), reader.to_string()];
        let elements = vec![null(), faulty(bound_object(2, raw))];
        let file = file(&readers, object(1, list(elements)), vec![]);
        refused(&format!("{name}-is-declared"), 14, file)
    };
    let [indices, vertices] = [index_buffer(true, 0), vertex_buffer(0, &[], 0)];
    let [declaration, model] = [declaration(0, &[]), empty_model(null())];
    vec![
        wrong(
            "index-buffer-where-vertex-buffer",
            "VertexBuffer",
            INDEX_BUFFER,
            indices,
        ),
        wrong(
            "vertex-buffer-where-declaration",
            "VertexDeclaration",
            VERTEX_BUFFER,
            vertices,
        ),
        wrong(
            "declaration-where-model",
            "Model",
            VERTEX_DECLARATION,
            declaration,
        ),
        wrong("model-where-index-buffer", "IndexBuffer", MODEL, model),
    ]
}

/// A count that claims more than there are rows, and a name that is cut.
fn claims() -> Vec<Sample> {
    // Behind the object, the stride and the count, row 1,024 is the format of element 255.
    let elements = declaration(4, &vec![Element::default(); 256]);
    let elements = with_child(elements, 1, |_| count(u32::MAX));
    let elements = with_child(elements, 2 + 4 * 255 + 1, faulty);
    let elements = file(&[VERTEX_DECLARATION], object(1, elements), vec![]);
    let mut mesh = plain_mesh(0, vec![]);
    mesh.name = bound_object(2, text("dial"));
    mesh.name.parts.insert(1, Part::Fault);
    mesh.name.parts[3] = Part::Data(b"dia".to_vec());
    mesh.name.parts.push(Part::End);
    vec![
        refused("declaration-of-ffffffff-elements", 19, elements),
        of_model("name-of-a-mesh-cut", 1, of_meshes(vec![mesh]), vec![]),
    ]
}
