//! Writes the files that the tests in a browser and the picture of README show, into the folder that is named.
//!
//! console.xnb has three pages in a ring, a texture, a font and a padded title; gauge.xnb a model; rows.xnb 65,536 rows;
//! texts.xnb titles that try to be markup, that turn lines, and Thai ones; bad.xnb is refused; depot.pak is a pack with
//! a path that tries to be markup.

use corpus::meshes::{
    data, declaration, model, number, plain_mesh, plain_part, Bone, Element, Mesh, Model,
};
use corpus::readers::*;
use corpus::values::*;
use corpus::writer::{write, Part, Role, Value};
use std::fs;
use std::path::Path;

fn main() {
    let folder = std::env::args_os().nth(1).expect("a folder is named");
    let folder = Path::new(&folder);
    fs::create_dir_all(folder).expect("the folder is made");
    let bad = broken();
    let samples = [
        ("console.xnb", console()),
        ("gauge.xnb", gauge()),
        ("rows.xnb", rows()),
        ("texts.xnb", texts()),
        ("bad.xnb", bad.clone()),
        (
            "depot.pak",
            pack(&[
                ("Pages\\Console", &console()),
                ("<script>document.title='taken'</script>", &texts()),
                ("Gauges\\Coolant", &gauge()),
                ("Pages\\\u{202E}Broken", &bad),
                ("สถานี\\ถัดไป", &short("Hi")),
            ]),
        ),
    ];
    for (name, bytes) in samples {
        fs::write(folder.join(name), bytes).expect("a sample is written");
    }
}

/// A pack of these files.
fn pack(files: &[(&str, &Vec<u8>)]) -> Vec<u8> {
    let mut pack = (files.len() as u32).to_le_bytes().to_vec();
    for (path, data) in files {
        pack.push(u8::try_from(path.len()).expect("a short path"));
        assert!(path.len() < 128, "a length of one byte");
        pack.extend_from_slice(path.as_bytes());
        pack.extend_from_slice(&(data.len() as u32).to_le_bytes());
        pack.extend_from_slice(data);
    }
    pack
}

/// A file of one text.
fn short(title: &str) -> Vec<u8> {
    write(&file(&[STRING], object(1, text(title)), vec![])).bytes
}

/// A list of a text too few: it is refused.
fn broken() -> Vec<u8> {
    let mut bytes = short("Stops");
    let last = bytes.len() - 1;
    bytes[last] = 0xFF;
    bytes
}

/// A list of 65,535 texts, which are 65,536 rows with the list.
fn rows() -> Vec<u8> {
    let readers = [list_of("System.String"), STRING.to_string()];
    let stop = |number: u32| bound_object(2, text(&format!("Stop {number}")));
    let stops = (1..=65_535).map(stop).collect();
    write(&file(&readers, object(1, list(stops)), vec![])).bytes
}

/// Texts that try what texts can.
fn texts() -> Vec<u8> {
    let readers = [
        list_of("System.String"),
        STRING.to_string(),
        PAGE.to_string(),
    ];
    let titles = [
        "</script><script>document.title = 'taken'</script>",
        "<img src=x onerror=\"document.title='taken'\">",
        "\u{202E}reversed\u{2066} and \u{200F}turned",
        "สถานีถัดไป: หมอชิต",
        "line\nbreak\u{0}and\u{1B}[2Jcontrols",
        "&lt;b&gt; & \"quotes\" 'too' ]]>",
    ];
    let elements: Vec<Value> = titles.iter().map(|it| bound_object(2, text(it))).collect();
    let next = |number: usize| reference((number + 2) as u32);
    let pages = titles.iter().enumerate().map(|(number, title)| {
        let area = rectangle([10, 10, 300, 160]);
        let next = if number + 1 < titles.len() {
            next(number)
        } else {
            reference(0)
        };
        object(
            3,
            page(bound_object(2, text(title)), area, reference(0), next),
        )
    });
    write(&file(&readers, object(1, list(elements)), pages.collect())).bytes
}

/// The console's pages with a picture and a font.
fn console() -> Vec<u8> {
    let readers = [
        PAGE.to_string(),
        STRING.to_string(),
        TEXTURE2D.to_string(),
        SPRITE_FONT.to_string(),
        list_of("Microsoft.Xna.Framework.Rectangle"),
        list_of("System.Char"),
        list_of("Microsoft.Xna.Framework.Vector3"),
        nullable_of("System.Char"),
        RECTANGLE.to_string(),
        CHAR.to_string(),
        VECTOR3.to_string(),
    ];
    let title = |title: &str| bound_object(2, text(title));
    let one = |title: Value, area: [i32; 4], picture: u32, next: u32| {
        object(
            1,
            page(title, rectangle(area), reference(picture), reference(next)),
        )
    };
    // The length of the first title is in three bytes.
    let stops = padded(3, title("Next stop: Central"));
    let primary = one(stops, [0, 0, 320, 180], 1, 3);
    let shared = vec![
        object(3, picture()),
        object(4, letters()),
        one(title("Doors"), [20, 24, 200, 120], 1, 4),
        one(title("Line 12 to the harbour"), [0, 120, 320, 60], 0, 3),
    ];
    write(&file(&readers, primary, shared)).bytes
}

/// A level of these pixels.
fn level(pixels: &[[u8; 4]]) -> Value {
    let size = number_field(Role::LevelSize, 4 * pixels.len() as u32);
    value(35, vec![size, Part::Data(pixels.concat())])
}

/// A line with stops below an evening sky.
fn picture() -> Value {
    let (width, height) = (320_i32, 180_i32);
    let mut pixels = Vec::new();
    for y in 0..height {
        for x in 0..width {
            let hill = 128
                + ((f64::from(x) / 38.0).sin() * 9.0 + (f64::from(x) / 17.0).sin() * 4.0) as i32;
            let line = 92 + ((f64::from(x) / 60.0).sin() * 16.0) as i32;
            let nearest = (x + 30) / 60 * 60 - 4;
            let stop = 92 + ((f64::from(nearest) / 60.0).sin() * 16.0) as i32;
            let away = (x - nearest).pow(2) + (y - stop).pow(2);
            let fade = |top: i32, bottom: i32| (top + (bottom - top) * y / height) as u8;
            pixels.push(match () {
                _ if away <= 20 => [250, 250, 245, 255],
                _ if away <= 52 => [232, 112, 58, 255],
                _ if (y - line).abs() <= 2 => [232, 112, 58, 255],
                _ if y > hill + 22 => [20, 40, 52, 255],
                _ if y > hill => [28, 60, 74, 255],
                _ => [fade(26, 196), fade(44, 150), fade(92, 140), 255],
            });
        }
    }
    texture_of(0, 320, 180, vec![level(&pixels)])
}

/// The columns of letters of five by seven, from the space on; the lowest bit is the upper pixel.
#[rustfmt::skip]
const LETTERS: [(char, [u8; 5]); 70] = [
    (' ', [0x00, 0x00, 0x00, 0x00, 0x00]), ('!', [0x00, 0x00, 0x5F, 0x00, 0x00]), (',', [0x00, 0x50, 0x30, 0x00, 0x00]),
    ('-', [0x08, 0x08, 0x08, 0x08, 0x08]), ('.', [0x00, 0x00, 0x60, 0x60, 0x00]), ('/', [0x20, 0x10, 0x08, 0x04, 0x02]),
    ('0', [0x3E, 0x51, 0x49, 0x45, 0x3E]), ('1', [0x00, 0x42, 0x7F, 0x40, 0x00]), ('2', [0x72, 0x49, 0x49, 0x49, 0x46]),
    ('3', [0x21, 0x41, 0x49, 0x4D, 0x33]), ('4', [0x18, 0x14, 0x12, 0x7F, 0x10]), ('5', [0x27, 0x45, 0x45, 0x45, 0x39]),
    ('6', [0x3C, 0x4A, 0x49, 0x49, 0x31]), ('7', [0x41, 0x21, 0x11, 0x09, 0x07]), ('8', [0x36, 0x49, 0x49, 0x49, 0x36]),
    ('9', [0x46, 0x49, 0x49, 0x29, 0x1E]), (':', [0x00, 0x00, 0x24, 0x00, 0x00]), ('?', [0x02, 0x01, 0x59, 0x09, 0x06]),
    ('A', [0x7C, 0x12, 0x11, 0x12, 0x7C]), ('B', [0x7F, 0x49, 0x49, 0x49, 0x36]), ('C', [0x3E, 0x41, 0x41, 0x41, 0x22]),
    ('D', [0x7F, 0x41, 0x41, 0x41, 0x3E]), ('E', [0x7F, 0x49, 0x49, 0x49, 0x41]), ('F', [0x7F, 0x09, 0x09, 0x09, 0x01]),
    ('G', [0x3E, 0x41, 0x41, 0x51, 0x73]), ('H', [0x7F, 0x08, 0x08, 0x08, 0x7F]), ('I', [0x00, 0x41, 0x7F, 0x41, 0x00]),
    ('J', [0x20, 0x40, 0x41, 0x3F, 0x01]), ('K', [0x7F, 0x08, 0x14, 0x22, 0x41]), ('L', [0x7F, 0x40, 0x40, 0x40, 0x40]),
    ('M', [0x7F, 0x02, 0x1C, 0x02, 0x7F]), ('N', [0x7F, 0x04, 0x08, 0x10, 0x7F]), ('O', [0x3E, 0x41, 0x41, 0x41, 0x3E]),
    ('P', [0x7F, 0x09, 0x09, 0x09, 0x06]), ('Q', [0x3E, 0x41, 0x51, 0x21, 0x5E]), ('R', [0x7F, 0x09, 0x19, 0x29, 0x46]),
    ('S', [0x26, 0x49, 0x49, 0x49, 0x32]), ('T', [0x03, 0x01, 0x7F, 0x01, 0x03]), ('U', [0x3F, 0x40, 0x40, 0x40, 0x3F]),
    ('V', [0x1F, 0x20, 0x40, 0x20, 0x1F]), ('W', [0x3F, 0x40, 0x38, 0x40, 0x3F]), ('X', [0x63, 0x14, 0x08, 0x14, 0x63]),
    ('Y', [0x03, 0x04, 0x78, 0x04, 0x03]), ('Z', [0x61, 0x59, 0x49, 0x4D, 0x43]), ('a', [0x20, 0x54, 0x54, 0x78, 0x40]),
    ('b', [0x7F, 0x28, 0x44, 0x44, 0x38]), ('c', [0x38, 0x44, 0x44, 0x44, 0x28]), ('d', [0x38, 0x44, 0x44, 0x28, 0x7F]),
    ('e', [0x38, 0x54, 0x54, 0x54, 0x18]), ('f', [0x00, 0x08, 0x7E, 0x09, 0x02]), ('g', [0x18, 0xA4, 0xA4, 0x9C, 0x78]),
    ('h', [0x7F, 0x08, 0x04, 0x04, 0x78]), ('i', [0x00, 0x44, 0x7D, 0x40, 0x00]), ('j', [0x20, 0x40, 0x40, 0x3D, 0x00]),
    ('k', [0x7F, 0x10, 0x28, 0x44, 0x00]), ('l', [0x00, 0x41, 0x7F, 0x40, 0x00]), ('m', [0x7C, 0x04, 0x78, 0x04, 0x78]),
    ('n', [0x7C, 0x08, 0x04, 0x04, 0x78]), ('o', [0x38, 0x44, 0x44, 0x44, 0x38]), ('p', [0xFC, 0x18, 0x24, 0x24, 0x18]),
    ('q', [0x18, 0x24, 0x24, 0x18, 0xFC]), ('r', [0x7C, 0x08, 0x04, 0x04, 0x08]), ('s', [0x48, 0x54, 0x54, 0x54, 0x24]),
    ('t', [0x04, 0x04, 0x3F, 0x44, 0x24]), ('u', [0x3C, 0x40, 0x40, 0x20, 0x7C]), ('v', [0x1C, 0x20, 0x40, 0x20, 0x1C]),
    ('w', [0x3C, 0x40, 0x30, 0x40, 0x3C]), ('x', [0x44, 0x28, 0x10, 0x28, 0x44]), ('y', [0x4C, 0x90, 0x90, 0x90, 0x7C]),
    ('z', [0x44, 0x64, 0x54, 0x4C, 0x44]),
];

/// A font of these letters, twice as large, white on nothing.
fn letters() -> Value {
    const CELL: (usize, usize, usize) = (12, 18, 16);
    let lines = LETTERS.len().div_ceil(CELL.2);
    let (width, height) = (CELL.0 * CELL.2, CELL.1 * lines);
    let mut pixels = vec![[0_u8; 4]; width * height];
    let (mut bounds, mut croppings, mut kernings) = (vec![], vec![], vec![]);
    for (place, (_, columns)) in LETTERS.iter().enumerate() {
        let (left, top) = (place % CELL.2 * CELL.0, place / CELL.2 * CELL.1);
        for (x, column) in columns.iter().enumerate() {
            for y in (0..8).filter(|y| column >> y & 1 == 1) {
                for (dx, dy) in [(0, 0), (1, 0), (0, 1), (1, 1)] {
                    pixels[(top + 2 * y + dy) * width + left + 2 * x + dx] = [255; 4];
                }
            }
        }
        bounds.push(rectangle([left as i32, top as i32, 10, 16]));
        croppings.push(rectangle([0, 0, 10, 16]));
        kernings.push(vector3([0.0, 10.0, 0.0]));
    }
    let characters = LETTERS.iter().map(|(it, _)| character(*it)).collect();
    font(Font {
        texture: bound_object(
            3,
            texture_of(0, width as u32, height as u32, vec![level(&pixels)]),
        ),
        glyphs: bound_object(5, list(bounds)),
        cropping: bound_object(5, list(croppings)),
        characters: bound_object(6, list(characters)),
        line_spacing: int32(20),
        spacing: single(2.0),
        kerning: bound_object(7, list(kernings)),
        default_character: something(character('?')),
    })
}

/// A dial and its needle.
fn gauge() -> Vec<u8> {
    let readers = [
        MODEL.to_string(),
        STRING.to_string(),
        VERTEX_BUFFER.to_string(),
        INDEX_BUFFER.to_string(),
    ];
    let sides = 32_u16;
    let corner = |number: u16, radius: f32| {
        let angle = std::f32::consts::TAU * f32::from(number) / f32::from(sides);
        [angle.cos() * radius, angle.sin() * radius]
    };
    let mut places: Vec<[f32; 3]> = Vec::new();
    let mut triangles: Vec<[u16; 3]> = Vec::new();
    for number in 0..sides {
        let (outer, inner) = (corner(number, 10.0), corner(number, 8.0));
        places.push([outer[0], outer[1], 0.0]);
        places.push([inner[0], inner[1], 1.5]);
        let (here, there) = (2 * number, 2 * ((number + 1) % sides));
        triangles.push([here, there, here + 1]);
        triangles.push([here + 1, there, there + 1]);
    }
    let ring = triangles.len() as u32;
    let hub = places.len() as u16;
    places.extend([[-0.8, 0.0, 1.0], [0.8, 0.0, 1.0], [0.0, 7.0, 2.5]]);
    triangles.push([0, 1, 2]);
    let position = Element {
        offset: 0,
        format: 2,
        usage: 0,
        usage_index: 0,
    };
    let bytes: Vec<u8> = places
        .iter()
        .flatten()
        .flat_map(|it| it.to_le_bytes())
        .collect();
    let vertices = vec![
        declaration(12, &[position]),
        number(Role::VertexCount(12), places.len() as u32),
        data(&bytes),
    ];
    let bytes: Vec<u8> = triangles
        .iter()
        .flatten()
        .flat_map(|it| it.to_le_bytes())
        .collect();
    let indices = vec![
        boolean(true),
        number(Role::IndexSize(2), bytes.len() as u32),
        data(&bytes),
    ];
    let children = |fields: Vec<Value>| fields.into_iter().map(Part::Child).collect();
    let turned = |angle: f32| {
        let (sine, cosine) = angle.sin_cos();
        matrix([
            cosine, sine, 0.0, 0.0, -sine, cosine, 0.0, 0.0, 0.0, 0.0, 1.0, 0.0, 0.0, 0.0, 0.0, 1.0,
        ])
    };
    let named = |name: &str, transform: Value, parent: u32, below: Vec<u32>| Bone {
        name: bound_object(2, text(name)),
        transform,
        parent,
        children: below,
    };
    let mesh = |name: &str, bone: u32, numbers: [u32; 4]| {
        let mut part = plain_part(1, 2, 0);
        part.numbers = numbers;
        Mesh {
            name: bound_object(2, text(name)),
            center: [0.0; 3],
            radius: 10.0,
            ..plain_mesh(bone, vec![part])
        }
    };
    let whole = Model {
        bones: vec![
            named("hub", turned(0.0), 0, vec![2]),
            named("pivot", turned(-0.9), 1, vec![]),
        ],
        meshes: vec![
            mesh("dial", 1, [0, u32::from(hub), 0, ring]),
            mesh("needle", 2, [u32::from(hub), 3, 3 * ring, 1]),
        ],
        root: 1,
        tag: null(),
    };
    let shared = vec![
        object(3, value(39, children(vertices))),
        object(4, value(37, children(indices))),
    ];
    write(&file(&readers, object(1, model(whole)), shared)).bytes
}
