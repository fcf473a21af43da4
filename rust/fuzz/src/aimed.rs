//! Damage at one field of a lawful file, with the refusal that it must meet.

use crate::broken::{names, Broken, Fault};
use crate::enums::bytes_of;
use crate::limits::alone;
use crate::maker::{make, Made, Planted, Wish};
use crate::meshes;
use crate::names::{wrong_name, Wrong};
use crate::random::Random;
use crate::shape::{self, Shape, OBJECT, TEXTURE};
use crate::{Case, Known, GENEROUS_WORDS};
use corpus::readers::MODEL;
use corpus::writer::{set_length, seven_bytes, write, Field, Role, Seven, Written, WORDS_PER_ROW};

/// A damaged file whose refusal is known.
pub fn aimed_case<'l>(random: &mut Random, wish: impl Into<Wish<'l>>) -> Case {
    broken_case(random, wish).case
}

/// The same with how it was damaged.
pub fn broken_case<'l>(random: &mut Random, wish: impl Into<Wish<'l>>) -> Broken {
    let wish = wish.into();
    let broken = match random.below(20) {
        0 => planted_case(random, wish, Planted::WrongResource, 17),
        1 => planted_case(random, wish, Planted::BadFont, 22),
        2 => planted_case(random, wish, Planted::TooDeep, 18),
        3 => too_few_rows(random, wish),
        4 => left_over(random, wish),
        5 => bad_header(random, wish),
        6..=7 => {
            let lawful = lawful(random, wish);
            cut(random, lawful)
        }
        _ => {
            let lawful = lawful(random, wish);
            bad_field(random, wish, lawful)
        }
    };
    Broken {
        enums: bytes_of(wish.enums),
        ..broken
    }
}

/// A model of so many bones that its references have one byte or four, with a bad field or cut.
pub fn many_bones(random: &mut Random) -> Broken {
    let count = random.between(250, 260) as usize;
    let reference = random.between(0, count as u32);
    let made = Made {
        file: alone(&[MODEL], meshes::bones(count, reference)),
        targets: vec![Shape::plain(shape::MODEL)],
    };
    let written = write(&made.file);
    let words = WORDS_PER_ROW * written.rows.len();
    let mut broken = match random.chance(50) {
        true => bad_field(random, Wish::MESHES, (made, written)),
        false => cut(random, (made, written)),
    };
    broken.case.words = words;
    broken
}

/// A lawful file, with what it is made of.
fn unbroken(random: &mut Random, made: &Made, written: Written) -> Broken {
    let before = written.clone();
    let case = crate::lawful_case(random, written);
    Broken::new(case, made, before, None)
}

/// A case whose words have room enough.
fn case(bytes: Vec<u8>, number: u32, place: usize) -> Case {
    Case {
        bytes,
        words: GENEROUS_WORDS,
        known: Some(Known::Refused { number, place }),
    }
}

fn lawful(random: &mut Random, wish: Wish) -> (Made, Written) {
    made_and_written(random, wish, Planted::Nothing)
}

/// A file whose rows fit into the words lent.
fn made_and_written(random: &mut Random, wish: Wish, planted: Planted) -> (Made, Written) {
    loop {
        let made = make(random, planted, wish);
        let written = write(&made.file);
        if WORDS_PER_ROW * written.rows.len() <= GENEROUS_WORDS {
            return (made, written);
        }
    }
}

/// A file with a fault built in; without one, if the fault found no place.
fn planted_case(random: &mut Random, wish: Wish, planted: Planted, number: u32) -> Broken {
    let (made, written) = made_and_written(random, wish, planted);
    match written.fault {
        Some(place) => {
            let case = case(written.bytes.clone(), number, place);
            Broken::new(case, &made, written, Some(Fault::Planted))
        }
        None => unbroken(random, &made, written),
    }
}

/// 19: the words lent have no room for the last rows.
fn too_few_rows(random: &mut Random, wish: Wish) -> Broken {
    let (made, written) = lawful(random, wish);
    let room = random.below(written.rows.len());
    let place = written.rows[room][1] as usize;
    let mut case = case(written.bytes.clone(), 19, place);
    case.words = WORDS_PER_ROW * room + random.below(WORDS_PER_ROW);
    Broken::new(case, &made, written, Some(Fault::Rows(room)))
}

/// 20: bytes after the last object.
fn left_over(random: &mut Random, wish: Wish) -> Broken {
    let (made, written) = lawful(random, wish);
    let place = written.bytes.len();
    let mut bytes = written.bytes.clone();
    let count = 1 + random.below(5);
    bytes.extend(random.bytes(count));
    set_length(&mut bytes, 0);
    let fault = Some(Fault::LeftOver(count));
    Broken::new(case(bytes, 20, place), &made, written, fault)
}

/// 2 to 7, and 1 for a file without a whole header.
fn bad_header(random: &mut Random, wish: Wish) -> Broken {
    let (made, written) = lawful(random, wish);
    let case = with_bad_header(random, written.bytes.clone());
    Broken::new(case, &made, written, Some(Fault::Header))
}

fn with_bad_header(random: &mut Random, mut bytes: Vec<u8>) -> Case {
    match random.below(7) {
        0 => {
            let place = random.below(3);
            bytes[place] ^= 1 << random.below(8);
            case(bytes, 2, 0)
        }
        1 => {
            bytes[3] = random.pick(b"WMXavi\0\xFF");
            case(bytes, 3, 3)
        }
        2 => {
            bytes[4] ^= 1 << random.below(8);
            case(bytes, 4, 4)
        }
        3 => {
            bytes[5] |= 0x80 | random.byte();
            case(bytes, 5, 5)
        }
        4 => {
            bytes[5] = random.between(2, 0x7F) as u8;
            case(bytes, 6, 5)
        }
        5 => {
            let place = 6 + random.below(4);
            bytes[place] ^= 1 << random.below(8);
            case(bytes, 7, 6)
        }
        _ => {
            bytes.truncate(random.below(10));
            case(bytes, 1, 0)
        }
    }
}

/// 1: the file ends inside a field, or before it.
fn cut(random: &mut Random, (made, written): (Made, Written)) -> Broken {
    // At any byte, of which names have the most, or in any field.
    let Field {
        start, data_end, ..
    } = written.fields[random.below(written.fields.len())];
    let end = if start < data_end && random.chance(50) {
        start + random.below(data_end - start)
    } else {
        10 + random.below(written.bytes.len() - 10)
    };
    let holds_end = |field: &Field| field.start <= end && end < field.data_end;
    let field = written.fields.iter().position(holds_end);
    let field = field.expect("every byte belongs to a field");
    let place = written.fields[field].start;
    let mut bytes = written.bytes.clone();
    bytes.truncate(end);
    set_length(&mut bytes, 0);
    Broken::new(
        case(bytes, 1, place),
        &made,
        written,
        Some(Fault::Cut { field }),
    )
}

/// What stands in a field's place, and what it must be refused with.
#[derive(Default)]
pub struct Damage {
    pub bytes: Vec<u8>,
    /// Whether the bytes that the field counts are replaced too.
    pub with_data: bool,
    pub number: u32,
    /// How far behind the field's start the refusal is placed.
    pub offset: usize,
    /// The name behind the field, and what is wrong with it.
    pub name: Option<(Vec<u8>, Wrong)>,
}

pub fn damage(bytes: Vec<u8>, number: u32) -> Option<Damage> {
    Some(Damage {
        bytes,
        number,
        ..Damage::default()
    })
}

/// Tries fields until one can be damaged with a known outcome.
fn bad_field(random: &mut Random, wish: Wish, (made, written): (Made, Written)) -> Broken {
    for _ in 0..200 {
        let number = random.below(written.fields.len());
        let field = written.fields[number];
        if let Some(damage) = field_damage(random, wish, &made, &written, field) {
            let end = if damage.with_data {
                field.data_end
            } else {
                field.end
            };
            let mut bytes = written.bytes[..field.start].to_vec();
            bytes.extend_from_slice(&damage.bytes);
            bytes.extend_from_slice(&written.bytes[end..]);
            set_length(&mut bytes, 0);
            let case = case(bytes, damage.number, field.start + damage.offset);
            let fault = match damage.name {
                Some((name, wrong)) => Fault::Name {
                    reader: names(&written)
                        .take_while(|it| it.start <= field.start)
                        .count(),
                    name,
                    wrong,
                },
                None => Fault::Field {
                    field: number,
                    bytes: damage.bytes,
                },
            };
            return Broken::new(case, &made, written, Some(fault));
        }
    }
    unbroken(random, &made, written)
}

fn seven_in_any_form(random: &mut Random, value: u32) -> Vec<u8> {
    let width = random.pick(&[0, 0, 2, 3, 4, 5]);
    seven_bytes(Seven { value, width })
}

fn field_damage(
    random: &mut Random,
    wish: Wish,
    made: &Made,
    written: &Written,
    field: Field,
) -> Option<Damage> {
    if is_seven(field.role) && random.chance(15) {
        return broken_seven(random);
    }
    match field.role {
        Role::ReaderCount => too_large(random, 65),
        Role::SharedCount => too_large(random, 257),
        Role::NameLength => bad_name(random, wish),
        Role::ReaderVersion => {
            let version = random.between(1, u32::MAX);
            damage(version.to_le_bytes().to_vec(), 12)
        }
        Role::FreeTypeId => bad_type_id(random, made),
        Role::BoundTypeId if random.chance(40) => bad_type_id(random, made),
        Role::BoundTypeId => undeclared_type_id(random, made, written, field),
        Role::ResourceId => {
            let above = written.shared as u32 + 1;
            let id = random.pick(&[above, above + 1, 1 << 20, u32::MAX]);
            damage(seven_in_any_form(random, id), 16)
        }
        Role::TextCount => bad_text(random, written, field),
        Role::ElementCount => None,
        Role::NullableFlag => damage(vec![random.between(2, 255) as u8], 15),
        Role::Character => bad_character(random),
        Role::SurfaceFormat => number_damage(random, &[19, 20, 255, 1 << 31, u32::MAX]),
        Role::Side => number_damage(random, &[0, 4097, 8192, 1 << 31, u32::MAX]),
        Role::LevelCount => number_damage(random, &[0, 14, 32, 1 << 31, u32::MAX]),
        Role::LevelSize => {
            let size = (field.data_end - field.end) as u32;
            number_damage(random, &[size + 1, size - 1, size + 256, u32::MAX])
        }
        Role::Fixed(kind) => bad_fixed(random, kind),
        Role::IndexSize(multiple) => meshes::bad_index_size(random, written, field, multiple),
        Role::ElementFormat => number_damage(random, &[12, 13, 255, 1 << 31, u32::MAX]),
        Role::ElementUsage => number_damage(random, &[13, 14, 255, 1 << 31, u32::MAX]),
        Role::VertexCount(stride) => meshes::too_many_vertices(random, written, field, stride),
        Role::BoneReference(bones) => meshes::bone_past_the_last(random, bones),
        Role::Stride | Role::DataBytes => None,
    }
}

fn is_seven(role: Role) -> bool {
    matches!(
        role,
        Role::ReaderCount
            | Role::SharedCount
            | Role::NameLength
            | Role::FreeTypeId
            | Role::BoundTypeId
            | Role::ResourceId
            | Role::TextCount
    )
}

/// 8: a fifth byte above 0F hex.
fn broken_seven(random: &mut Random) -> Option<Damage> {
    let mut bytes: Vec<u8> = (0..4).map(|_| random.byte() | 0x80).collect();
    bytes.push(random.between(0x10, 0xFF) as u8);
    damage(bytes, 8)
}

/// 9: a count above its bound.
fn too_large(random: &mut Random, least: u32) -> Option<Damage> {
    let count = random.pick(&[least, least + 1, 4 * least, u32::MAX]);
    damage(seven_in_any_form(random, count), 9)
}

/// 9, 11 or 33 to 38: a name of a wrong length, or a bad name.
fn bad_name(random: &mut Random, wish: Wish) -> Option<Damage> {
    if random.chance(20) {
        let length = random.pick(&[0, 1025, 2000, u32::MAX]);
        return damage(seven_in_any_form(random, length), 9);
    }
    let number = random.pick(&[11, 33, 34, 35, 36, 37, 38]);
    let (name, wrong) = wrong_name(random, number, wish.enums);
    let mut bytes = seven_in_any_form(random, name.len() as u32);
    let offset = bytes.len() + wrong.place;
    bytes.extend_from_slice(&name);
    Some(Damage {
        bytes,
        with_data: true,
        number,
        offset,
        name: Some((name, wrong)),
    })
}

/// 13: past the list, or a reader never invoked.
fn bad_type_id(random: &mut Random, made: &Made) -> Option<Damage> {
    let past = made.targets.len() as u32 + 1;
    let mut ids = vec![past, past + 1, 1 << 20, u32::MAX];
    for (position, target) in made.targets.iter().enumerate() {
        if target.kind == OBJECT || target.kind == TEXTURE {
            ids.push(position as u32 + 1);
        }
    }
    let id = random.pick(&ids);
    damage(seven_in_any_form(random, id), 13)
}

/// 14: a reader of another target than the object has.
fn undeclared_type_id(
    random: &mut Random,
    made: &Made,
    written: &Written,
    field: Field,
) -> Option<Damage> {
    let id = seven_value(&written.bytes[field.start..field.end]);
    let right = &made.targets[id as usize - 1];
    let mut ids = Vec::new();
    for (position, target) in made.targets.iter().enumerate() {
        let invoked = target.kind != OBJECT && target.kind != TEXTURE;
        if invoked && target != right {
            ids.push(position as u32 + 1);
        }
    }
    if ids.is_empty() {
        return None;
    }
    let id = random.pick(&ids);
    damage(seven_in_any_form(random, id), 14)
}

fn seven_value(bytes: &[u8]) -> u32 {
    let mut value = 0;
    for byte in bytes.iter().rev() {
        value = value << 7 | u32::from(byte & 0x7F);
    }
    value
}

/// Bytes that are no UTF-8.
const NO_TEXT: [&[u8]; 16] = [
    &[0x80],
    &[0xBF, 0xBF],
    &[0xC0, 0x80],
    &[0xC1, 0xBF],
    &[0xC2],
    &[0xC3, 0x28],
    &[0xE0, 0x9F, 0xBF],
    &[0xE2, 0x82],
    &[0xE2, 0x28, 0xA1],
    &[0xED, 0xA0, 0x80],
    &[0xED, 0xBF, 0xBF],
    &[0xF0, 0x8F, 0xBF, 0xBF],
    &[0xF4, 0x90, 0x80, 0x80],
    &[0xF5, 0x80, 0x80, 0x80],
    &[0xF0, 0x9F, 0x98],
    &[0xFF],
];

/// 1 for a count past the end, else 15 for bytes that are no text.
fn bad_text(random: &mut Random, written: &Written, field: Field) -> Option<Damage> {
    if random.chance(30) {
        let left = (written.bytes.len() - field.end) as u32;
        let count = random.pick(&[left + 1, left + 100, u32::MAX]);
        return damage(seven_in_any_form(random, count), 1);
    }
    let mut text = written.bytes[field.end..field.data_end].to_vec();
    let bad = random.pick(&NO_TEXT);
    if random.chance(30) {
        text.extend_from_slice(bad);
    } else {
        let starts = |place: &usize| text.get(*place).is_none_or(|byte| byte & 0xC0 != 0x80);
        let places: Vec<usize> = (0..=text.len()).filter(starts).collect();
        let place = random.pick(&places);
        // An ASCII byte behind it keeps the next character from making it whole.
        text.splice(place..place, bad.iter().copied().chain([b'!']));
    }
    let mut bytes = seven_in_any_form(random, text.len() as u32);
    bytes.extend_from_slice(&text);
    Some(Damage {
        bytes,
        with_data: true,
        number: 15,
        ..Damage::default()
    })
}

/// 15: no character of one to three bytes, whole as its lead byte says.
fn bad_character(random: &mut Random) -> Option<Damage> {
    let bad: [&[u8]; 12] = [
        &[0x80],
        &[0xBF],
        &[0xC0],
        &[0xC1],
        &[0xC2, 0x7F],
        &[0xDF, 0xC0],
        &[0xE0, 0x9F, 0xBF],
        &[0xED, 0xA0, 0x80],
        &[0xEF, 0xBF, 0x7F],
        &[0xF0, 0x9F, 0x98, 0x80],
        &[0xF4],
        &[0xFF],
    ];
    damage(random.pick(&bad).to_vec(), 15)
}

fn number_damage(random: &mut Random, numbers: &[u32]) -> Option<Damage> {
    damage(random.pick(numbers).to_le_bytes().to_vec(), 15)
}

/// 15: the three fixed kinds that have a rule.
fn bad_fixed(random: &mut Random, kind: u32) -> Option<Damage> {
    match kind {
        11 => damage(vec![random.between(2, 255) as u8], 15),
        21 => damage(bad_date_time(random).to_le_bytes().to_vec(), 15),
        22 => {
            let mut bytes = random.bytes(12);
            bytes.extend_from_slice(&bad_decimal_word(random).to_le_bytes());
            damage(bytes, 15)
        }
        _ => None,
    }
}

fn bad_date_time(random: &mut Random) -> u64 {
    let past_last_tick = 3_155_378_976_000_000_000;
    if random.chance(50) {
        let zone = random.between(0, 2);
        return u64::from(zone) << 62 | past_last_tick;
    }
    (3 << 62) | (random.number() % past_last_tick)
}

fn bad_decimal_word(random: &mut Random) -> u32 {
    if random.chance(30) {
        return random.between(29, 255) << 16;
    }
    let zero_bits = [0, 1, 7, 8, 14, 15, 24, 25, 29, 30];
    1 << random.pick(&zero_bits) | random.between(0, 28) << 16
}
