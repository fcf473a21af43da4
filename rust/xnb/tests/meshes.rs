//! Req 05: index buffers, vertex declarations, vertex buffers and models, their fields put together.

use corpus::folder::kept_files;
use corpus::meshes::gauge_file;
use corpus::writer::write;
use fuzz::meshes::{case, limits};
use std::collections::BTreeMap;
use xnb::meshes::{ElementFormat, ElementUsage, MeshPart, Model, VertexElement};
use xnb::{
    explain, ByColumns, ByRows, Columns, Detail, Grid, Kind, Refusal, Refused, Shape, Shaped,
    Table, WORDS_PER_ROW,
};

const FILES: u64 = 20_000;

/// The bytes of a sample.
fn sample(name: &str) -> Vec<u8> {
    let file = kept_files().into_iter().find(|file| file.name == name);
    file.unwrap_or_else(|| panic!("no sample {name}")).bytes
}

#[test]
fn a_gauge_has_its_bones_meshes_and_parts() {
    fn check<S: Shaped>(file: &[u8]) {
        let table = Grid::<S>::load(file).expect("a lawful file");
        let model = table.model(0).expect("a model");
        assert_eq!(model.root, Some(0));
        assert_eq!(table.text(model.tag), Ok("coolant"));
        check_bones(&model);
        check_meshes(&table, &model);
        let needle = model.meshes().nth(1).expect("a mesh");
        check_buffers(&needle.parts().next().expect("a part"));
        check_resources(&table);
    }
    for width in [0, 3] {
        let file = write(&gauge_file(width)).bytes;
        check::<ByRows>(&file);
        check::<ByColumns>(&file);
    }
}

fn check_bones(model: &Model) {
    let bones: Vec<_> = model.bones().collect();
    assert_eq!((model.bones().len(), bones.len()), (3, 3));
    let names: Vec<_> = bones.iter().map(|bone| bone.name).collect();
    assert_eq!(names, [Some("hub"), None, None]);
    let parents: Vec<_> = bones.iter().map(|bone| bone.parent).collect();
    assert_eq!(parents, [None, Some(0), Some(0)]);
    assert!(bones[0].children().eq([Some(1), Some(2)]));
    assert_eq!(bones[1].children().len(), 0);
    assert_eq!(bones[2].transform, [3.0; 16]);
}

fn check_meshes<S: Shaped>(table: &Grid<S>, model: &Model) {
    let meshes: Vec<_> = model.meshes().collect();
    let [dial, needle] = &meshes[..] else {
        panic!("two meshes");
    };
    assert_eq!(model.meshes().len(), 2);
    assert_eq!((dial.name, dial.bone), (Some("dial"), Some(1)));
    assert_eq!((dial.center, dial.radius), ([1.0, 2.0, 3.0], 4.0));
    assert_eq!(table.text(dial.tag), Ok("°C"));
    assert_eq!((needle.name, needle.bone), (None, Some(2)));
    assert_eq!(table.row(needle.tag).map(|it| it.kind), Some(Kind::Null));

    let parts: Vec<_> = dial.parts().collect();
    assert_eq!((dial.parts().len(), parts.len()), (2, 2));
    let glass = parts[1];
    assert_eq!((glass.vertex_offset, glass.vertex_count), (3, 1));
    let numbers = (glass.start_index, glass.primitive_count);
    assert_eq!(numbers, (u32::MAX, 0x8000_0000));
    assert_eq!(table.text(glass.tag), Ok("glass"));
    assert_eq!((parts[0].effect_id, glass.effect_id), (None, Some(4)));
    // The parts of the dial share both buffers, the needle has indices of its own.
    let ids = |part: &MeshPart| (part.vertex_buffer_id, part.index_buffer_id);
    assert_eq!(ids(&parts[0]), (Some(1), Some(2)));
    assert_eq!(ids(&glass), (Some(1), Some(2)));
    let needle = needle.parts().next().expect("a part");
    assert_eq!(ids(&needle), (Some(1), Some(3)));
    let short = glass.index_buffer().expect("an index buffer");
    assert!(short.is_16_bit && short.indices().len() == 6);
    let first = u16::from_le_bytes([short.data[0], short.data[1]]);
    assert_eq!(short.indices().next(), Some(first.into()));
}

fn check_buffers(needle: &MeshPart) {
    let vertices = needle.vertex_buffer().expect("a vertex buffer");
    assert_eq!((vertices.vertex_count, vertices.data.len()), (4, 80));
    assert_eq!(vertices.vertices().len(), 4);
    assert_eq!(vertices.vertices().nth(2), Some(&vertices.data[40..60]));
    let elements = [
        VertexElement {
            offset: 0,
            format: ElementFormat::Vector3,
            usage: ElementUsage::Position,
            usage_index: 0,
        },
        VertexElement {
            offset: 12,
            format: ElementFormat::Vector2,
            usage: ElementUsage::TextureCoordinate,
            usage_index: 0,
        },
    ];
    assert_eq!(vertices.declaration.stride, 20);
    assert_eq!(vertices.declaration.elements().len(), 2);
    assert!(vertices.declaration.elements().eq(elements));
    let indices = needle.index_buffer().expect("an index buffer");
    assert!(!indices.is_16_bit && indices.indices().len() == 3);
}

/// Resource ids count from 1, and the last names a null.
fn check_resources<S: Shaped>(table: &Grid<S>) {
    let kind = |id| table.row(table.resource(id)?).map(|row| row.kind);
    let buffers = [Kind::VertexBuffer, Kind::IndexBuffer, Kind::IndexBuffer];
    assert_eq!([1, 2, 3].map(kind), buffers.map(Some));
    assert_eq!([kind(0), kind(4), kind(5)], [None, Some(Kind::Null), None]);
    assert_eq!(kind(u32::MAX), None);
}

#[test]
fn buffers_may_be_empty() {
    let file = sample("ok-index-data-0-of-16-bit");
    let table = Table::load(&file).expect("a lawful file");
    let buffer = table.index_buffer(0).expect("an index buffer");
    assert_eq!((buffer.is_16_bit, buffer.data), (true, &[][..]));
    assert_eq!(buffer.indices().next(), None);
    // Its row names no part of the file.
    let (refusal, place) = (Refusal::NoSuchRow, 3);
    assert_eq!(table.row(3).map(|row| row.kind), Some(Kind::DataBytes));
    assert_eq!(table.part(3), Err(Refused { refusal, place }));

    let file = sample("ok-vertex-stride-0-of-ffffffff");
    let table = Table::load(&file).expect("a lawful file");
    let buffer = table.vertex_buffer(0).expect("a vertex buffer");
    assert_eq!(buffer.vertex_count, u32::MAX);
    assert_eq!(buffer.vertices().len(), u32::MAX as usize);
    assert_eq!(buffer.vertices().nth(1_000_000), Some(&[][..]));

    let file = sample("ok-vertex-stride-ffffffff-of-no-vertex");
    let table = Columns::load(&file).expect("a lawful file");
    let buffer = table.vertex_buffer(0).expect("a vertex buffer");
    assert_eq!(buffer.declaration.stride, u32::MAX);
    assert_eq!((buffer.vertices().next(), buffer.data), (None, &[][..]));
    let declaration = table.vertex_declaration(1).expect("a declaration");
    assert_eq!(declaration.stride, u32::MAX);

    let file = sample("ok-kind-40-model-of-nothing");
    let table = Table::load(&file).expect("a lawful file");
    let model = table.model(0).expect("a model");
    assert_eq!((model.bones().len(), model.meshes().len()), (0, 0));
    assert_eq!(model.root, None);
}

#[test]
fn rows_of_other_kinds_are_refused() {
    let file = sample("ok-gauge");
    let table = Table::load(&file).expect("a lawful file");
    for (number, row) in (0..).zip(table.rows()) {
        let (refusal, place) = (Refusal::OtherKind, number);
        let refused = Some(Refused { refusal, place });
        let expected = |kind| refused.filter(|_| row.kind != kind);
        assert_eq!(table.model(number).err(), expected(Kind::Model));
        assert_eq!(
            table.index_buffer(number).err(),
            expected(Kind::IndexBuffer)
        );
        assert_eq!(
            table.vertex_buffer(number).err(),
            expected(Kind::VertexBuffer)
        );
        let declaration = expected(Kind::VertexDeclaration);
        assert_eq!(table.vertex_declaration(number).err(), declaration);
    }
    for place in [table.loaded().rows as u32, u32::MAX] {
        let refusal = Refusal::NoSuchRow;
        let refused = Some(Refused { refusal, place });
        assert_eq!(table.model(place).err(), refused);
        assert_eq!(table.index_buffer(place).err(), refused);
        assert_eq!(table.vertex_buffer(place).err(), refused);
        assert_eq!(table.vertex_declaration(place).err(), refused);
    }
}

/// A field of a model, as its row has it.
#[derive(Debug, PartialEq)]
enum Field<'f> {
    Number(u32),
    Name(Option<&'f str>),
    Bytes(Vec<u8>),
    Bone(Option<usize>),
    Tag(u32),
    Resource(Option<u32>),
}

use Field::*;

fn floats(numbers: &[f32]) -> Field<'static> {
    Bytes(numbers.iter().flat_map(|it| it.to_le_bytes()).collect())
}

/// The fields of a model in the order of the format, by the iterators.
fn fields<'f>(model: &Model<'_, 'f>) -> Vec<Field<'f>> {
    let mut fields = vec![Number(model.bones().len() as u32)];
    for bone in model.bones() {
        fields.extend([Name(bone.name), floats(&bone.transform)]);
    }
    for bone in model.bones() {
        fields.extend([Bone(bone.parent), Number(bone.children().len() as u32)]);
        fields.extend(bone.children().map(Bone));
    }
    fields.push(Number(model.meshes().len() as u32));
    for mesh in model.meshes() {
        let parts = Number(mesh.parts().len() as u32);
        fields.extend([Name(mesh.name), Bone(mesh.bone), floats(&mesh.center)]);
        fields.extend([floats(&[mesh.radius]), Tag(mesh.tag), parts]);
        for part in mesh.parts() {
            let numbers = [part.vertex_offset, part.vertex_count];
            fields.extend(numbers.map(Number));
            let numbers = [part.start_index, part.primitive_count];
            fields.extend(numbers.map(Number));
            fields.push(Tag(part.tag));
            let ids = [part.vertex_buffer_id, part.index_buffer_id, part.effect_id];
            fields.extend(ids.map(Resource));
        }
    }
    fields.extend([Bone(model.root), Tag(model.tag)]);
    fields
}

/// The same field by its row alone.
fn by_row<'f>(table: &Table<'f>, number: u32, expected: &Field) -> Field<'f> {
    let row = table.row(number).expect("a child");
    let bytes = &table.file()[row.first..row.first + row.length];
    let little_endian = || {
        bytes
            .iter()
            .rev()
            .fold(0, |sum, byte| sum << 8 | u32::from(*byte))
    };
    match expected {
        Tag(_) => Tag(number),
        _ => match row.kind {
            Kind::UInt32 => Number(little_endian()),
            Kind::Null => Name(None),
            Kind::String => Name(Some(table.text(number).expect("a text"))),
            Kind::BoneReference => Bone(little_endian().checked_sub(1).map(|it| it as usize)),
            Kind::SharedReference => Resource(match row.detail {
                Detail::ResourceId(id) => Some(id),
                _ => None,
            }),
            Kind::Matrix | Kind::Vector3 | Kind::Single => Bytes(bytes.to_vec()),
            kind => panic!("no field of a model is of kind {kind}"),
        },
    }
}

/// A row of one file in both shapes, and its children's rows.
struct Both<'a, 'f> {
    table: &'a Table<'f>,
    columns: &'a Columns<'f>,
    number: u32,
    children: Vec<u32>,
    reported: String,
}

impl<'f> Both<'_, 'f> {
    /// The bytes of a child.
    fn bytes(&self, index: usize) -> &'f [u8] {
        let row = self.table.row(self.children[index]).expect("a child");
        &self.table.file()[row.first..row.first + row.length]
    }

    fn word(&self, index: usize) -> u32 {
        u32::from_le_bytes(self.bytes(index).try_into().expect("four bytes"))
    }

    /// Checks a model, a buffer or a declaration against its children's rows; answers whether it is one.
    fn check(&self, kind: Kind) -> bool {
        match kind {
            Kind::Model => self.check_model(),
            Kind::IndexBuffer => self.check_index_buffer(),
            Kind::VertexBuffer => self.check_vertex_buffer(),
            Kind::VertexDeclaration => self.check_declaration(),
            _ => return false,
        }
        true
    }

    fn check_model(&self) {
        let model = self.table.model(self.number).expect("a model");
        let fields = fields(&model);
        assert_eq!(fields.len(), self.children.len(), "{}", self.reported);
        for (child, field) in self.children.iter().zip(&fields) {
            assert_eq!(
                by_row(self.table, *child, field),
                *field,
                "{}",
                self.reported
            );
        }
        let model = self.columns.model(self.number).expect("a model");
        assert_eq!(self::fields(&model), fields, "{}", self.reported);
        for part in model.meshes().flat_map(|mesh| mesh.parts()) {
            check_part(&self.reported, self.table, &part);
        }
    }

    fn check_index_buffer(&self) {
        let buffer = self.table.index_buffer(self.number).expect("a buffer");
        let other = self.columns.index_buffer(self.number).expect("a buffer");
        assert_eq!(buffer, other, "{}", self.reported);
        assert_eq!(
            [u8::from(buffer.is_16_bit)],
            self.bytes(0),
            "{}",
            self.reported
        );
        assert_eq!(buffer.data, self.bytes(2), "{}", self.reported);
        let size = if buffer.is_16_bit { 2 } else { 4 };
        let indices = self.word(1) as usize / size;
        assert_eq!(buffer.indices().len(), indices, "{}", self.reported);
        let bytes = buffer
            .indices()
            .flat_map(|it| it.to_le_bytes()[..size].to_vec());
        assert!(bytes.eq(buffer.data.iter().copied()), "{}", self.reported);
    }

    fn check_vertex_buffer(&self) {
        for buffer in [
            self.table.vertex_buffer(self.number).expect("a buffer"),
            self.columns.vertex_buffer(self.number).expect("a buffer"),
        ] {
            assert_eq!(buffer.vertex_count, self.word(1), "{}", self.reported);
            assert_eq!(buffer.data, self.bytes(2), "{}", self.reported);
            if buffer.declaration.stride > 0 {
                assert!(
                    buffer.vertices().flatten().eq(buffer.data),
                    "{}",
                    self.reported
                );
            }
            let declared = self.table.vertex_declaration(self.children[0]);
            let declared = declared.expect("a declaration");
            assert_eq!(
                declared.stride, buffer.declaration.stride,
                "{}",
                self.reported
            );
            assert!(declared.elements().eq(buffer.declaration.elements()));
        }
    }

    fn check_declaration(&self) {
        let number = self.number;
        for declaration in [
            self.table
                .vertex_declaration(number)
                .expect("a declaration"),
            self.columns
                .vertex_declaration(number)
                .expect("a declaration"),
        ] {
            let mut words = vec![declaration.stride, declaration.elements().len() as u32];
            for element in declaration.elements() {
                let codes = [element.format.code(), element.usage.code()];
                let [format, usage] = codes.map(|code| code as u32);
                words.extend([element.offset, format, usage, element.usage_index]);
            }
            let expected = (0..self.children.len()).map(|index| self.word(index));
            assert!(expected.eq(words), "{}", self.reported);
        }
    }
}

/// A part's buffers are its resources, or nothing for a null.
fn check_part(name: &str, table: &Table, part: &MeshPart) {
    let kind = |id: Option<u32>| Some(table.row(table.resource(id?)?)?.kind);
    match part.vertex_buffer() {
        Some(_) => assert_eq!(kind(part.vertex_buffer_id), Some(Kind::VertexBuffer)),
        None => assert!(
            matches!(kind(part.vertex_buffer_id), None | Some(Kind::Null)),
            "{name}"
        ),
    }
    match part.index_buffer() {
        Some(buffer) => {
            let number = table.resource(part.index_buffer_id.expect("an id"));
            let resource = table.index_buffer(number.expect("a resource"));
            assert_eq!(resource, Ok(buffer), "{name}");
        }
        None => assert!(
            matches!(kind(part.index_buffer_id), None | Some(Kind::Null)),
            "{name}"
        ),
    }
    assert!(
        matches!(kind(part.effect_id), None | Some(Kind::Null)),
        "{name}"
    );
}

/// Every mesh of every file that is taken, however it is generated.
#[test]
fn iterators_give_what_the_rows_hold() {
    let generated = (0..FILES).map(|seed| (format!("seed {seed}"), case(seed).bytes));
    let limits = limits().into_iter();
    let limits = limits.map(|limit| (limit.name, limit.case.bytes));
    let kept = kept_files().into_iter().map(|file| (file.name, file.bytes));
    let mut counts: BTreeMap<Kind, u32> = BTreeMap::new();
    for (name, file) in generated.chain(limits).chain(kept) {
        let Ok(table) = Table::load(&file) else {
            continue;
        };
        let columns = Columns::load(&file).expect("as by rows");
        for (number, row) in (0..).zip(table.rows()) {
            let both = Both {
                table: &table,
                columns: &columns,
                number,
                children: table.children(number).collect(),
                reported: format!("{name}, row {number}"),
            };
            if both.check(row.kind) {
                *counts.entry(row.kind).or_default() += 1;
            }
        }
    }
    println!("{counts:?}");
    assert_eq!(counts.len(), 4);
    assert!(counts.values().all(|count| *count > 1000), "{counts:?}");
}

#[test]
fn every_refusal_of_a_mesh_is_explained() {
    let generated = (0..FILES).map(|seed| (format!("seed {seed}"), case(seed)));
    let limits = limits().into_iter().map(|limit| (limit.name, limit.case));
    let mut counts: BTreeMap<Refusal, u32> = BTreeMap::new();
    for (name, case) in generated.chain(limits) {
        let loaded = Shape::Rows.load(&case.bytes, &mut vec![0; case.words]);
        if let Err(refused) = loaded {
            let explanation = explain(&case.bytes, refused, case.words / WORDS_PER_ROW);
            assert!(explanation.is_some(), "{name}: {refused}");
            *counts.entry(refused.refusal).or_default() += 1;
        }
    }
    println!("{counts:?}");
    for number in [1, 13, 14, 15, 16, 17, 18, 19] {
        let refusal = Refusal::of_number(number).expect("a refusal");
        let count = counts.get(&refusal).copied().unwrap_or_default();
        assert!(count >= 50, "{number}: {count}");
    }
}

/// Each rule of a mesh, in the words of a sample.
#[test]
fn what_is_found_is_reported() {
    let graphics = "Microsoft.Xna.Framework.Graphics";
    let reported = [
        (
            "bad-15-index-flag-2",
            "Boolean: the byte is 2; only 0 and 1 are taken".to_string(),
        ),
        (
            "bad-15-index-data-1-of-16-bit",
            "IndexBuffer: the data size is 1; only a multiple of 2 is taken".to_string(),
        ),
        (
            "bad-15-index-data-2-of-32-bit",
            "IndexBuffer: the data size is 2; only a multiple of 4 is taken".to_string(),
        ),
        (
            "bad-15-element-format-12",
            "VertexDeclaration: the element format is 12; only 0 to 11 are taken".to_string(),
        ),
        (
            "bad-15-element-usage-ffffffff",
            "VertexDeclaration: the element usage is -1; only 0 to 12 are taken".to_string(),
        ),
        (
            "bad-15-bone-parent-255-of-254",
            "BoneReference: the number is 255, the bone count 254".to_string(),
        ),
        (
            "bad-01-bone-parent-of-four-bytes-cut",
            "a bone reference takes 4 bytes, 3 left".to_string(),
        ),
        (
            "bad-01-index-data-cut",
            "the index data takes 4 bytes, 3 left".to_string(),
        ),
        (
            "bad-01-vertex-product-of-2-to-the-32-and-4",
            "the vertex data takes 4294967300 bytes, 4 left".to_string(),
        ),
        (
            "bad-01-vertex-product-of-ffffffff-squared",
            "the vertex data takes 18446744065119617025 bytes, 1 left".to_string(),
        ),
        (
            "bad-01-part-vertex-number-cut",
            "the vertex count of a mesh part takes 4 bytes, 3 left".to_string(),
        ),
        (
            "bad-17-index-reference-to-vertex-buffer",
            format!(
                "declared {graphics}.IndexBuffer, \
                 found {graphics}.VertexBuffer as resource 1 at byte 413"
            ),
        ),
        (
            "bad-17-effect-reference-to-text",
            "declared an effect, which must be null, found System.String".to_string(),
        ),
    ];
    for (name, expected) in reported {
        let file = sample(name);
        let refused = Shape::Rows.load(&file, &mut vec![0; WORDS_PER_ROW * 1024]);
        let refused = refused.expect_err("a refused sample");
        let explanation = explain(&file, refused, 1024).expect("an explanation");
        let found = explanation.found;
        assert!(found.starts_with(&expected), "{name}: {found}");
    }
}
