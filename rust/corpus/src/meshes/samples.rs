//! Meshes that must be accepted.

use super::*;
use crate::lawful::buried;
use crate::readers::{
    list_of, INDEX_BUFFER, MODEL, PAGE, STRING, TEXTURE2D, VERTEX_BUFFER, VERTEX_DECLARATION,
};
use crate::sample::{accepted, refused, Sample};
use crate::values::{
    bound_object, faulty, file, list, null, object, page, rectangle, text, texture,
};
use crate::writer::File;

/// Readers for models and all that stands in them here.
pub const MESH_READERS: [&str; 7] = [
    MODEL,
    STRING,
    VERTEX_BUFFER,
    INDEX_BUFFER,
    PAGE,
    TEXTURE2D,
    VERTEX_DECLARATION,
];

pub fn samples() -> Vec<Sample> {
    let mut samples = vec![
        accepted("gauge", gauge_file(0)),
        accepted("gauge-with-numbers-in-3-bytes", gauge_file(3)),
        accepted("model-tag-leads-into-a-ring", ring_file()),
        accepted("model-of-models", model_of_models()),
        accepted("parts-with-null-resources", null_resources()),
        accepted("declarations-as-objects", declarations()),
        accepted("resources-that-no-part-names", unnamed_resources()),
        accepted("bone-references-to-the-last-bone", last_bones()),
    ];
    samples.extend(bone_counts());
    samples.extend(depths());
    samples
}

/// A file of a model and the shared objects that it names.
pub fn mesh_file(primary: Value, shared: Vec<Value>) -> File {
    file(&MESH_READERS, primary, shared)
}

pub fn name(name: &str) -> Value {
    bound_object(2, text(name))
}

pub fn vertices(count: u32) -> Value {
    let elements = [
        Element {
            format: 2,
            ..Element::default()
        },
        Element {
            offset: 12,
            format: 1,
            usage: 2,
            usage_index: 0,
        },
    ];
    object(3, vertex_buffer(20, &elements, count))
}

pub fn indices(is_16_bit: bool, size: usize) -> Value {
    object(4, index_buffer(is_16_bit, size))
}

/// A gauge: a dial of two parts and a needle, which share one vertex buffer; the dial's parts share an index buffer.
pub fn gauge_file(width: usize) -> File {
    let mut hub = plain_bone(1.0, 0);
    hub.name = name("hub");
    hub.children = vec![2, 3];
    let mut dial = plain_mesh(2, vec![plain_part(1, 2, 0), plain_part(1, 2, 4)]);
    dial.name = name("dial");
    dial.tag = object(2, text("°C"));
    dial.parts[1].tag = object(2, text("glass"));
    dial.parts[1].numbers = [3, 1, u32::MAX, 0x8000_0000];
    let needle = plain_mesh(3, vec![plain_part(1, 3, 0)]);
    let gauge = Model {
        bones: vec![hub, plain_bone(2.0, 1), plain_bone(3.0, 1)],
        meshes: vec![dial, needle],
        root: 1,
        tag: object(2, text("coolant")),
    };
    let shared = vec![vertices(4), indices(true, 12), indices(false, 12), null()];
    let mut file = mesh_file(object(1, model(gauge)), shared);
    file.each_seven(&mut |_, seven| seven.width = width);
    file
}

/// "Rings of pages are lawful": the model's tag is a page, and its next leads into a ring of shared pages.
fn ring_file() -> File {
    let page = |title: &str, next: u32| {
        let fields = page(
            name(title),
            rectangle([0; 4]),
            reference(0),
            reference(next),
        );
        object(5, fields)
    };
    let empty = Model {
        bones: vec![],
        meshes: vec![],
        root: 0,
        tag: page("tag", 1),
    };
    let shared = vec![page("one", 2), page("two", 3), page("three", 1)];
    mesh_file(object(1, model(empty)), shared)
}

/// Tags are declared Object: models as the tags of a model, of its mesh and of its part.
fn model_of_models() -> File {
    let small = |tag: Value| {
        let model = model(Model {
            bones: vec![plain_bone(1.0, 1)],
            meshes: vec![],
            root: 1,
            tag,
        });
        object(1, model)
    };
    let mut mesh = plain_mesh(0, vec![plain_part(0, 0, 0)]);
    mesh.tag = small(null());
    mesh.parts[0].tag = small(object(7, declaration(1, &[])));
    let large = Model {
        bones: vec![],
        meshes: vec![mesh],
        root: 0,
        tag: small(small(vertices(0))),
    };
    mesh_file(object(1, model(large)), vec![])
}

/// A null resource fits every reference, an effect's too.
fn null_resources() -> File {
    let mesh = plain_mesh(0, vec![plain_part(1, 1, 1), plain_part(2, 1, 2)]);
    let model = model(Model {
        bones: vec![],
        meshes: vec![mesh],
        root: 0,
        tag: null(),
    });
    mesh_file(object(1, model), vec![null(), null()])
}

/// "Elsewhere a declaration stands as an object", which may be null.
fn declarations() -> File {
    let declarations = list_of("Microsoft.Xna.Framework.Graphics.VertexDeclaration");
    let names = [declarations, VERTEX_DECLARATION.to_string()];
    let elements = vec![
        bound_object(2, declaration(12, &[Element::default()])),
        null(),
        bound_object(2, declaration(0, &[])),
    ];
    file(&names, object(1, list(elements)), vec![])
}

/// Shared objects of every kind that no reference names.
fn unnamed_resources() -> File {
    let shared = vec![
        vertices(1),
        indices(true, 0),
        object(7, declaration(4, &[])),
        object(6, texture(0, 1, 1, 1)),
        object(2, text("x")),
    ];
    mesh_file(null(), shared)
}

/// Each reference names the last bone.
fn last_bones() -> File {
    let mut bones = vec![plain_bone(0.0, 4); 4];
    bones[3].children = vec![4, 0, 4];
    let model = model(Model {
        bones,
        meshes: vec![plain_mesh(4, vec![])],
        root: 4,
        tag: null(),
    });
    mesh_file(object(1, model), vec![])
}

/// A model of so many bones, each with the last as its parent, and nothing more.
pub fn bones_only(count: usize) -> Value {
    object(
        1,
        model(Model {
            bones: vec![plain_bone(0.5, count as u32); count],
            meshes: vec![],
            root: count as u32,
            tag: null(),
        }),
    )
}

/// "If bone count is less than 255 this value is serialized as a Byte": 254 bones make 1,021 rows; a model of 255 has
/// 1,025, so with room for 1,024 its tag is refused, behind 256 references of four bytes.
fn bone_counts() -> Vec<Sample> {
    let mut parts = bones_only(255).parts;
    let Some(Part::Child(tag)) = parts.last_mut() else {
        unreachable!("a model ends in its tag");
    };
    *tag = faulty(tag.clone());
    let mut too_many = bones_only(255);
    too_many.parts = parts;
    vec![
        accepted("model-of-254-bones", mesh_file(bones_only(254), vec![])),
        refused("model-of-255-bones", 19, mesh_file(too_many, vec![])),
    ]
}

/// Depth counts fields and data: a declaration's fields are two deeper than its vertex buffer.
fn depths() -> Vec<Sample> {
    let deep = |name: &str, depth, reader: &str, raw: Value| {
        let readers = [list_of("System.Object"), reader.to_string()];
        let primary = buried(depth, object(2, raw));
        accepted(name, file(&readers, primary, vec![]))
    };
    let empty = Model {
        bones: vec![],
        meshes: vec![],
        root: 0,
        tag: null(),
    };
    vec![
        deep(
            "depth-32-index-data",
            31,
            INDEX_BUFFER,
            index_buffer(true, 2),
        ),
        deep(
            "depth-32-element",
            31,
            VERTEX_DECLARATION,
            declaration(4, &[Element::default()]),
        ),
        deep(
            "depth-32-raw-declaration",
            30,
            VERTEX_BUFFER,
            vertex_buffer(4, &[Element::default()], 1),
        ),
        deep("depth-32-root-bone", 31, MODEL, model(empty)),
    ]
}
