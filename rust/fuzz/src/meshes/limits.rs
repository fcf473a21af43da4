//! Meshes at every bound of Req 05 and just past it.

use crate::limits::{alone, limit, Limit};
use crate::random::Random;
use crate::{Case, Known, GENEROUS_WORDS};
use corpus::lawful::{buried, page_to};
use corpus::meshes::{
    bone, declaration, empty_model, gauge_file, index_buffer, model, number, plain_bone,
    plain_mesh, plain_part, some_data, vertex_buffer, Element, Model, MESH_READERS,
};
use corpus::readers::{list_of, INDEX_BUFFER, MODEL, VERTEX_BUFFER, VERTEX_DECLARATION};
use corpus::values::*;
use corpus::writer::{set_length, write, Field, File, Part, Role, Value, WORDS_PER_ROW};

/// The cases, all of them known.
pub fn limits() -> Vec<Limit> {
    let mut limits = index_sizes();
    limits.extend(index_flags());
    limits.extend(codes());
    limits.extend(products());
    limits.extend(bone_counts());
    limits.extend(bone_references());
    limits.extend(depths());
    limits.extend(resources());
    limits.extend(rooms());
    limits.extend(cuts());
    limits.extend(longest());
    limits
}

/// A raw value of these children.
fn with_children(kind: u32, children: Vec<Value>) -> Value {
    value(kind, children.into_iter().map(Part::Child).collect())
}

/// An index buffer with another size than its data has; the fault is marked at its size or at its data.
fn index_file(is_16_bit: bool, size: u32, present: usize, fault: usize) -> File {
    let multiple = if is_16_bit { 2 } else { 4 };
    let size = number(Role::IndexSize(multiple), size);
    let fields = vec![boolean(is_16_bit), size, some_data(present)];
    let raw = with_child(with_children(37, fields), fault, faulty);
    alone(&[INDEX_BUFFER], object(1, raw))
}

const SIZE: usize = 1;
const DATA: usize = 2;

/// Each size from 0 to 17 under both flags, and sizes that no file holds.
fn index_sizes() -> Vec<Limit> {
    let mut limits = Vec::new();
    for (is_16_bit, multiple) in [(true, 2), (false, 4)] {
        let name = |size: u32| format!("index data of {size} bytes in {multiple}s");
        for size in 0..18 {
            let present = size as usize;
            let lawful = size % multiple == 0;
            let file = index_file(is_16_bit, size, present, SIZE);
            limits.push(limit(name(size), if lawful { 0 } else { 15 }, file));
            if lawful && size > 0 {
                let file = index_file(is_16_bit, size, present - 1, DATA);
                limits.push(limit(name(size) + ", cut", 1, file));
            }
        }
        for size in [1 << 24, 1 << 31, u32::MAX - 3, u32::MAX - 1, u32::MAX] {
            let lawful = size % multiple == 0;
            let (number, fault) = if lawful { (1, DATA) } else { (15, SIZE) };
            let file = index_file(is_16_bit, size, 9, fault);
            limits.push(limit(name(size), number, file));
        }
    }
    limits
}

fn index_flags() -> Vec<Limit> {
    let mut limits = Vec::new();
    for flag in 0..=255 {
        let buffer = with_child(index_buffer(false, 8), 0, |_| faulty(fixed(11, &[flag])));
        let file = alone(&[INDEX_BUFFER], object(1, buffer));
        let number = if flag > 1 { 15 } else { 0 };
        limits.push(limit(format!("index flag {flag}"), number, file));
    }
    limits
}

/// Each code of an element, and what lies just past the last.
fn codes() -> Vec<Limit> {
    let mut limits = Vec::new();
    let far = [17, 255, 256, 0x7FFF_FFFF, 0x8000_0000, u32::MAX];
    for code in (0..17).chain(far) {
        for (field, last, what) in [(1, 11, "format"), (2, 12, "usage")] {
            let mut element = [0, 0, 0, 0];
            element[field] = code;
            let mut fields = vec![uint32(8), uint32(1)];
            for (position, number) in element.into_iter().enumerate() {
                let kind = if position == 1 || position == 2 { 5 } else { 6 };
                let plain = fixed(kind, &number.to_le_bytes());
                let this = position == field;
                fields.push(if this { faulty(plain) } else { plain });
            }
            let number = if code > last { 15 } else { 0 };
            let raw = with_children(38, fields);
            let file = alone(&[VERTEX_DECLARATION], object(1, raw.clone()));
            limits.push(limit(format!("element {what} {code}"), number, file));
            let fields = vec![raw, uint32(0), some_data(0)];
            let file = alone(&[VERTEX_BUFFER], object(1, with_children(39, fields)));
            limits.push(limit(format!("element {what} {code}, raw"), number, file));
        }
    }
    for count in [0, 1, 2, 253] {
        let elements = vec![Element::default(); count];
        let file = alone(&[VERTEX_DECLARATION], object(1, declaration(4, &elements)));
        limits.push(limit(format!("{count} elements"), 0, file));
    }
    limits
}

/// Count times stride: products that the file holds to the byte, and those that it does not.
fn products() -> Vec<Limit> {
    let numbers = [0, 1, 2, 3, 4, 255, 256, 65_535, 65_536, 65_537];
    let large = [
        0x4000_0001,
        0x5555_5556,
        0x7FFF_FFFF,
        0x8000_0000,
        0x8000_0001,
        u32::MAX,
    ];
    let mut limits = Vec::new();
    for stride in numbers.into_iter().chain(large) {
        for count in numbers.into_iter().chain(large) {
            let product = u64::from(stride) * u64::from(count);
            let short = product as u32;
            let mut present = vec![];
            if product <= 300_000 {
                present.push((product as usize, 0));
                if product > 0 {
                    present.push((product as usize - 1, 1));
                }
            } else {
                present.push((7, 1));
                // As many bytes as the low 32 bits of the product say.
                present.push((short.min(1000) as usize, 1));
            }
            for (present, number_of) in present {
                let data = faulty(some_data(present));
                let fields = vec![declaration(stride, &[]), uint32(count), data];
                let file = alone(&[VERTEX_BUFFER], object(1, with_children(39, fields)));
                let name = format!("{count} vertices of {stride} bytes with {present}");
                limits.push(limit(name, number_of, file));
            }
        }
    }
    limits
}

/// A model of so many bones whose references all name this bone.
pub fn bones(count: usize, reference: u32) -> Value {
    object(
        1,
        model(Model {
            bones: vec![plain_bone(0.25, reference); count],
            meshes: vec![plain_mesh(reference, vec![])],
            root: reference,
            tag: null(),
        }),
    )
}

/// With words for just its rows, or for one less.
fn with_room(limit: Limit, rows: usize) -> Limit {
    let mut limit = limit;
    limit.case.words = WORDS_PER_ROW * rows;
    limit
}

fn rows_of(file: &File) -> usize {
    write(file).rows.len()
}

/// Bone counts around 255, and as many as there are rows for.
fn bone_counts() -> Vec<Limit> {
    let mut limits = Vec::new();
    for count in [0, 1, 2, 127, 128, 253, 254, 255, 256, 257, 1000, 16_381] {
        for reference in [0, count as u32] {
            let file = alone(&[MODEL], bones(count, reference));
            let rows = rows_of(&file);
            let name = format!("{count} bones, all references {reference}");
            limits.push(with_room(limit(name, 0, file), rows));
        }
    }
    // With 16,382 bones there are more rows than 65,536, whatever the words.
    let file = alone(&[MODEL], bones(16_382, 0));
    let first_too_many = write(&file).rows[65_536][1] as usize;
    let mut refused = limit("16,382 bones", 0, file);
    refused.case.words = WORDS_PER_ROW * 70_000;
    refused.case.known = Some(Known::Refused {
        number: 19,
        place: first_too_many,
    });
    limits.push(refused);
    limits
}

/// Each place of a bone reference, with the last bone and one past it.
fn bone_references() -> Vec<Limit> {
    let mut limits = Vec::new();
    for count in [0_usize, 1, 2, 253, 254, 255, 256] {
        // The children of a model of so many bones: the count, names and transforms, then parents and child counts.
        let parent = 1 + 2 * count;
        let mesh_bone = 1 + 2 * count + 2 * count + 2;
        let root = mesh_bone + 5;
        let mut places = vec![("mesh bone", mesh_bone), ("root bone", root)];
        if count > 0 {
            places.push(("first parent", parent));
            places.push(("last parent", parent + 2 * (count - 1)));
        }
        for (what, place) in places {
            for (reference, number) in references(count) {
                let value = with_child(bones(count, 0), place, |_| faulty(bone(count, reference)));
                let file = alone(&[MODEL], value);
                let rows = rows_of(&file);
                let name = format!("{what} {reference} of {count} bones");
                limits.push(with_room(limit(name, number, file), rows));
            }
        }
    }
    limits
}

/// References that are lawful in a model of so many bones, and those that are not.
fn references(count: usize) -> Vec<(u32, u32)> {
    let last = count as u32;
    let mut references = vec![(0, 0), (last, 0)];
    let past = if count < 255 {
        vec![last + 1, 255]
    } else {
        vec![last + 1, 1 << 16, 1 << 24, 1 << 31, u32::MAX]
    };
    references.extend(past.into_iter().map(|reference| (reference, 15)));
    references
}

/// Each type at depths 29 to 32; a declaration's fields are two deeper than its vertex buffer.
fn depths() -> Vec<Limit> {
    let mut limits = Vec::new();
    let types: [(&str, &str, Value, u32); 4] = [
        ("index buffer", INDEX_BUFFER, index_buffer(true, 2), 1),
        (
            "declaration",
            VERTEX_DECLARATION,
            declaration(1, &[Element::default()]),
            1,
        ),
        ("vertex buffer", VERTEX_BUFFER, vertex_buffer(1, &[], 3), 2),
        ("model", MODEL, empty_model(null()), 1),
    ];
    for (what, reader, raw, below) in types {
        for depth in 29..=32 {
            let deepest = depth + below;
            let marked = match (depth, below) {
                _ if deepest <= 32 => raw.clone(),
                // The raw declaration has depth 32, and its stride 33.
                (31, 2) => with_child(raw.clone(), 0, |raw| with_child(raw, 0, faulty)),
                _ => with_child(raw.clone(), 0, faulty),
            };
            let readers = [list_of("System.Object"), reader.to_string()];
            let file = alone(&readers, buried(depth, object(2, marked)));
            let number = if deepest > 32 { 18 } else { 0 };
            limits.push(limit(format!("{what} at depth {depth}"), number, file));
        }
    }
    limits
}

/// Each reference of a part to a resource of each kind.
fn resources() -> Vec<Limit> {
    let shared = [
        ("null", null()),
        ("vertex buffer", object(3, vertex_buffer(1, &[], 1))),
        ("index buffer", object(4, index_buffer(true, 2))),
        ("declaration", object(7, declaration(1, &[]))),
        ("model", object(1, empty_model(null()))),
        ("page", object(5, page_to("x", 0, 0))),
        ("texture", object(6, texture(0, 1, 1, 1))),
        ("text", object(2, text("x"))),
    ];
    let mut limits = Vec::new();
    for (which, what) in ["vertices", "indices", "effect"].into_iter().enumerate() {
        for id in 0..=shared.len() as u32 + 1 {
            let mut part = plain_part(0, 0, 0);
            let reference = faulty(reference(id));
            match which {
                0 => part.vertices = reference,
                1 => part.indices = reference,
                _ => part.effect = reference,
            }
            let number = match (which, id) {
                (_, 0 | 1) | (0, 2) | (1, 3) => 0,
                (_, id) if id as usize > shared.len() => 16,
                _ => 17,
            };
            let raw = model(Model {
                bones: vec![],
                meshes: vec![plain_mesh(0, vec![part])],
                root: 0,
                tag: null(),
            });
            let resources = shared.iter().map(|(_, value)| value.clone()).collect();
            let file = file(&MESH_READERS, object(1, raw), resources);
            limits.push(limit(format!("{what} of resource {id}"), number, file));
        }
    }
    limits
}

/// A gauge with room for each number of rows: 19 at the first value without one.
fn rooms() -> Vec<Limit> {
    let file = gauge_file(0);
    let written = write(&file);
    let mut limits = Vec::new();
    for room in 0..written.rows.len() {
        let name = format!("a gauge with room for {room} rows");
        let mut limit = with_room(limit(name, 0, file.clone()), room);
        limit.case.known = Some(Known::Refused {
            number: 19,
            place: written.rows[room][1] as usize,
        });
        limits.push(limit);
    }
    let rows = written.rows.len();
    limits.push(with_room(
        limit("a gauge with just room enough", 0, file),
        rows,
    ));
    limits
}

/// A gauge that is cut at each byte: 1 at the field that is cut.
fn cuts() -> Vec<Limit> {
    let mut limits = Vec::new();
    for width in [0, 2] {
        let written = write(&gauge_file(width));
        for end in 10..written.bytes.len() {
            let holds_end = |field: &&Field| field.start <= end && end < field.data_end;
            let field = written.fields.iter().find(holds_end);
            let place = field.expect("every byte belongs to a field").start;
            let mut bytes = written.bytes[..end].to_vec();
            set_length(&mut bytes, 0);
            limits.push(Limit {
                name: format!("a gauge cut at {end}, numbers of {width}"),
                case: Case {
                    bytes,
                    words: GENEROUS_WORDS,
                    known: Some(Known::Refused { number: 1, place }),
                },
            });
        }
    }
    limits
}

/// A file of 16,777,216 bytes that is almost all vertex data, and one that is a byte longer.
fn longest() -> Vec<Limit> {
    let longest = 16_777_216;
    let of = |size: u32| alone(&[VERTEX_BUFFER], object(1, vertex_buffer(1, &[], size)));
    let before = write(&of(0)).bytes.len();
    let size = (longest - before) as u32;
    let mut too_long = limit("vertex data of one byte too many", 0, of(size + 1));
    too_long.case.known = Some(Known::Refused {
        number: 9,
        place: 0,
    });
    vec![limit("the most vertex data", 0, of(size)), too_long]
}

/// A model of 250 to 260 bones, lawful or with one reference above the count.
pub fn many_bones(random: &mut Random) -> Case {
    let count = random.between(250, 260) as usize;
    let reference = random.between(0, count as u32);
    let model = bones(count, reference);
    let references: Vec<usize> = (0..count).map(|bone| 1 + 2 * count + 2 * bone).collect();
    let place = random.pick(&references);
    let (number, model) = if random.chance(50) {
        let unlawful: Vec<(u32, u32)> = self::references(count).split_off(2);
        let (above, number) = random.pick(&unlawful);
        (
            number,
            with_child(model, place, |_| faulty(bone(count, above))),
        )
    } else {
        (0, model)
    };
    let file = alone(&[MODEL], model);
    let rows = rows_of(&file) + random.below(3);
    with_room(limit("many bones", number, file), rows).case
}
