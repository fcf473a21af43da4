//! What the children of a value are to it.

use std::fmt::Display;
use std::iter::{once, repeat};
use xnb::meshes::{Bone, Mesh, Model, VertexDeclaration, VertexElement};
use xnb::{Kind, Table};

/// What a value is to the one above it.
#[derive(Clone, Default)]
pub struct Field {
    pub name: Option<String>,
    /// What its number means.
    pub meaning: Option<String>,
}

impl Field {
    pub fn named(name: impl Display) -> Field {
        Field {
            name: Some(name.to_string()),
            meaning: None,
        }
    }

    fn with_meaning(name: impl Display, meaning: impl Display) -> Field {
        Field {
            meaning: Some(meaning.to_string()),
            ..Field::named(name)
        }
    }

    /// The same of a thing that has several such fields.
    fn of(self, owner: impl Display) -> Field {
        let name = self.name.map(|name| format!("{owner} {name}"));
        Field { name, ..self }
    }
}

type Fields<'t> = Box<dyn Iterator<Item = Field> + 't>;

const FONT: [&str; 8] = [
    "texture",
    "glyphs",
    "cropping",
    "characters",
    "line spacing",
    "spacing",
    "kerning",
    "default character",
];
const PAGE: [&str; 4] = ["title", "area", "picture", "next"];
const INDEX_BUFFER: [&str; 3] = ["is 16 bit", "data size", "index data"];
const VERTEX_BUFFER: [&str; 3] = ["declaration", "vertex count", "vertex data"];
const PART: [&str; 8] = [
    "vertex offset",
    "vertex count",
    "start index",
    "primitive count",
    "tag",
    "vertex buffer",
    "index buffer",
    "effect",
];

/// The fields of a value of this kind, in the order of its children; elements have no names.
pub fn fields<'t>(table: &'t Table, number: u32, kind: Kind) -> Fields<'t> {
    let loaded = "a loaded row of its kind";
    match kind {
        Kind::SpriteFont => named(&FONT),
        Kind::Page => named(&PAGE),
        Kind::Dictionary => Box::new(["key", "value"].map(Field::named).into_iter().cycle()),
        Kind::IndexBuffer => named(&INDEX_BUFFER),
        Kind::VertexBuffer => named(&VERTEX_BUFFER),
        Kind::VertexDeclaration => declaration(table.vertex_declaration(number).expect(loaded)),
        Kind::Model => model(table.model(number).expect(loaded)),
        _ => Box::new(repeat(Field::default())),
    }
}

fn named(names: &'static [&'static str]) -> Fields<'static> {
    Box::new(names.iter().map(Field::named))
}

/// Each thing's fields, behind its number from 1 on.
fn numbered<'t, T: 't>(
    what: &'static str,
    things: impl Iterator<Item = T> + 't,
    fields: fn(T) -> Fields<'t>,
) -> impl Iterator<Item = Field> + 't {
    let each = (1..).zip(things);
    each.flat_map(move |(number, thing)| {
        fields(thing).map(move |field| field.of(format_args!("{what} {number}")))
    })
}

fn declaration<'t>(declaration: VertexDeclaration<'t, 't>) -> Fields<'t> {
    let elements = numbered("element", declaration.elements(), element);
    Box::new(named(&["stride", "element count"]).chain(elements))
}

fn element(element: VertexElement) -> Fields<'static> {
    Box::new(
        [
            Field::named("offset"),
            Field::with_meaning("format", element.format),
            Field::with_meaning("usage", element.usage),
            Field::named("usage index"),
        ]
        .into_iter(),
    )
}

fn model<'t>(model: Model<'t, 't>) -> Fields<'t> {
    let bones = numbered("bone", model.bones(), |_| named(&["name", "transform"]));
    let links = numbered("bone", model.bones(), links);
    let meshes = numbered("mesh", model.meshes(), mesh);
    let fields = once(Field::named("bone count")).chain(bones).chain(links);
    let fields = fields.chain(once(Field::named("mesh count"))).chain(meshes);
    Box::new(fields.chain(named(&["root bone", "tag"])))
}

fn links<'t>(bone: Bone<'t, 't>) -> Fields<'t> {
    let children = (1..=bone.children().len()).map(|it| Field::named(format_args!("child {it}")));
    Box::new(named(&["parent", "child count"]).chain(children))
}

fn mesh<'t>(mesh: Mesh<'t, 't>) -> Fields<'t> {
    let fields = named(&["name", "bone", "center", "radius", "tag", "part count"]);
    Box::new(fields.chain(numbered("part", mesh.parts(), |_| named(&PART))))
}
