//! Values to be written, by kind.

use crate::writer::{each_seven, File, Part, Role, Seven, Value};

/// A whole file with a right header and right counts.
pub fn file<N: AsRef<str>>(readers: &[N], primary: Value, shared: Vec<Value>) -> File {
    let mut objects = vec![primary];
    objects.extend(shared);
    let shared_count = objects.len() as u32 - 1;
    File {
        start: *b"XNBw\x05\x00",
        length_error: 0,
        reader_count: vec![seven(Role::ReaderCount, readers.len() as u32)],
        readers: readers
            .iter()
            .map(|name| crate::readers::reader(name.as_ref()))
            .collect(),
        shared_count: vec![seven(Role::SharedCount, shared_count)],
        objects,
        rest: Vec::new(),
    }
}

/// A seven-bit number in its shortest form.
pub fn seven(role: Role, value: u32) -> Part {
    Part::Seven(role, Seven { value, width: 0 })
}

/// A raw value as an object: the type id in front of it.
pub fn object(type_id: u32, raw: Value) -> Value {
    with_type_id(Role::FreeTypeId, type_id, raw)
}

/// The same where one type is declared.
pub fn bound_object(type_id: u32, raw: Value) -> Value {
    with_type_id(Role::BoundTypeId, type_id, raw)
}

fn with_type_id(role: Role, type_id: u32, raw: Value) -> Value {
    let mut object = raw;
    object.detail = type_id;
    object.parts.insert(0, seven(role, type_id));
    object
}

pub fn null() -> Value {
    value(0, vec![seven(Role::FreeTypeId, 0)])
}

pub fn value(kind: u32, parts: Vec<Part>) -> Value {
    let detail = 0;
    Value {
        kind,
        detail,
        parts,
    }
}

/// A value of fixed size.
pub fn fixed(kind: u32, bytes: &[u8]) -> Value {
    value(kind, vec![Part::Field(Role::Fixed(kind), bytes.to_vec())])
}

pub fn byte(number: u8) -> Value {
    fixed(1, &[number])
}

pub fn sbyte(number: i8) -> Value {
    fixed(2, &number.to_le_bytes())
}

pub fn int16(number: i16) -> Value {
    fixed(3, &number.to_le_bytes())
}

pub fn uint16(number: u16) -> Value {
    fixed(4, &number.to_le_bytes())
}

pub fn int32(number: i32) -> Value {
    fixed(5, &number.to_le_bytes())
}

pub fn uint32(number: u32) -> Value {
    fixed(6, &number.to_le_bytes())
}

pub fn int64(number: i64) -> Value {
    fixed(7, &number.to_le_bytes())
}

pub fn uint64(number: u64) -> Value {
    fixed(8, &number.to_le_bytes())
}

pub fn single(number: f32) -> Value {
    fixed(9, &number.to_le_bytes())
}

pub fn double(number: f64) -> Value {
    fixed(10, &number.to_le_bytes())
}

pub fn boolean(truth: bool) -> Value {
    fixed(11, &[u8::from(truth)])
}

/// A Char given by its bytes.
pub fn char_bytes(bytes: &[u8]) -> Value {
    value(12, vec![Part::Field(Role::Character, bytes.to_vec())])
}

pub fn character(character: char) -> Value {
    char_bytes(character.to_string().as_bytes())
}

/// A String given by its bytes.
pub fn text_bytes(bytes: &[u8]) -> Value {
    let count = seven(Role::TextCount, bytes.len() as u32);
    value(13, vec![count, Part::Data(bytes.to_vec())])
}

pub fn text(text: &str) -> Value {
    text_bytes(text.as_bytes())
}

pub fn enumeration(number: i32) -> Value {
    fixed(15, &number.to_le_bytes())
}

pub fn nothing() -> Value {
    value(16, vec![Part::Field(Role::NullableFlag, vec![0])])
}

pub fn something(inner: Value) -> Value {
    let flag = Part::Field(Role::NullableFlag, vec![1]);
    value(16, vec![flag, Part::Child(inner)])
}

pub fn array(elements: Vec<Value>) -> Value {
    counted(17, elements.len() as u32, elements)
}

pub fn list(elements: Vec<Value>) -> Value {
    counted(18, elements.len() as u32, elements)
}

pub fn dictionary(entries: Vec<(Value, Value)>) -> Value {
    let count = entries.len() as u32;
    let mut keys_and_values = Vec::new();
    for (key, item) in entries {
        keys_and_values.push(key);
        keys_and_values.push(item);
    }
    counted(19, count, keys_and_values)
}

/// Children behind a count that need not be theirs.
pub fn counted(kind: u32, count: u32, children: Vec<Value>) -> Value {
    let mut parts = vec![number_field(Role::ElementCount, count)];
    parts.extend(children.into_iter().map(Part::Child));
    value(kind, parts)
}

pub fn number_field(role: Role, number: u32) -> Part {
    Part::Field(role, number.to_le_bytes().to_vec())
}

pub fn time_span(ticks: i64) -> Value {
    fixed(20, &ticks.to_le_bytes())
}

pub fn date_time(zone: u64, ticks: u64) -> Value {
    fixed(21, &(zone << 62 | ticks).to_le_bytes())
}

/// A Decimal given by its four words.
pub fn decimal(words: [u32; 4]) -> Value {
    let bytes: Vec<u8> = words.iter().flat_map(|word| word.to_le_bytes()).collect();
    fixed(22, &bytes)
}

pub fn singles(kind: u32, numbers: &[f32]) -> Value {
    let bytes: Vec<u8> = numbers.iter().flat_map(|it| it.to_le_bytes()).collect();
    fixed(kind, &bytes)
}

pub fn vector2(numbers: [f32; 2]) -> Value {
    singles(23, &numbers)
}

pub fn vector3(numbers: [f32; 3]) -> Value {
    singles(24, &numbers)
}

pub fn vector4(numbers: [f32; 4]) -> Value {
    singles(25, &numbers)
}

pub fn matrix(numbers: [f32; 16]) -> Value {
    singles(26, &numbers)
}

pub fn quaternion(numbers: [f32; 4]) -> Value {
    singles(27, &numbers)
}

pub fn color(channels: [u8; 4]) -> Value {
    fixed(28, &channels)
}

fn integers(kind: u32, numbers: &[i32]) -> Value {
    let bytes: Vec<u8> = numbers.iter().flat_map(|it| it.to_le_bytes()).collect();
    fixed(kind, &bytes)
}

pub fn point(numbers: [i32; 2]) -> Value {
    integers(29, &numbers)
}

pub fn rectangle(numbers: [i32; 4]) -> Value {
    integers(30, &numbers)
}

/// A texture with its first levels.
pub fn texture(format: u32, width: u32, height: u32, levels: u32) -> Value {
    let mut children = Vec::new();
    for level in 0..levels {
        children.push(image_level(image_bytes(format, width, height, level)));
    }
    texture_of(format, width, height, children)
}

/// A texture given by its levels.
pub fn texture_of(format: u32, width: u32, height: u32, levels: Vec<Value>) -> Value {
    let mut parts = vec![
        number_field(Role::SurfaceFormat, format),
        number_field(Role::Side, width),
        number_field(Role::Side, height),
        number_field(Role::LevelCount, levels.len() as u32),
    ];
    parts.extend(levels.into_iter().map(Part::Child));
    value(32, parts)
}

/// A level of so many bytes.
pub fn image_level(size: u32) -> Value {
    let data = (0..size).map(|place| place as u8).collect();
    let size = number_field(Role::LevelSize, size);
    value(35, vec![size, Part::Data(data)])
}

/// Bits in one pixel by surface format; the block formats have 4 or 8.
const PIXEL_BITS: [u32; 19] = [
    32, 16, 16, 16, 4, 8, 8, 16, 32, 32, 32, 64, 8, 32, 64, 128, 16, 32, 64,
];

/// How many bytes a level must have.
pub fn image_bytes(format: u32, width: u32, height: u32, level: u32) -> u32 {
    let mut width = (width >> level).max(1);
    let mut height = (height >> level).max(1);
    if (4..=6).contains(&format) {
        width = (width + 3) & !3;
        height = (height + 3) & !3;
    }
    width * height * PIXEL_BITS[format as usize] / 8
}

/// The eight fields of a font.
pub struct Font {
    pub texture: Value,
    pub glyphs: Value,
    pub cropping: Value,
    pub characters: Value,
    pub line_spacing: Value,
    pub spacing: Value,
    pub kerning: Value,
    pub default_character: Value,
}

pub fn font(font: Font) -> Value {
    let fields = vec![
        Part::Child(font.texture),
        Part::Child(font.glyphs),
        Part::Child(font.cropping),
        Part::Child(font.characters),
        Part::Child(font.line_spacing),
        Part::Child(font.spacing),
        Part::Child(font.kerning),
        Part::Child(font.default_character),
    ];
    value(33, fields)
}

pub fn page(title: Value, area: Value, picture: Value, next: Value) -> Value {
    let fields = vec![
        Part::Child(title),
        Part::Child(area),
        Part::Child(picture),
        Part::Child(next),
    ];
    value(34, fields)
}

/// A shared reference.
pub fn reference(resource_id: u32) -> Value {
    let mut reference = value(36, vec![seven(Role::ResourceId, resource_id)]);
    reference.detail = resource_id;
    reference
}

/// The same value with every seven-bit number in it written in so many bytes.
pub fn padded(width: usize, value: Value) -> Value {
    let mut value = value;
    each_seven(&mut value.parts, &mut |_, seven| seven.width = width);
    value
}

/// The same value with the expected refusal's place at its start.
pub fn faulty(value: Value) -> Value {
    let mut value = value;
    value.parts.insert(0, Part::Fault);
    value
}

/// The same value with its child of this number, from 0 on, changed.
pub fn with_child(value: Value, number: usize, change: impl FnOnce(Value) -> Value) -> Value {
    let mut value = value;
    let is_child = |part: &&mut Part| matches!(part, Part::Child(_));
    let mut children = value.parts.iter_mut().filter(is_child);
    if let Some(Part::Child(child)) = children.nth(number) {
        *child = change(child.clone());
    }
    value
}
