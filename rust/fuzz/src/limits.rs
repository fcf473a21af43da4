//! Files at every bound of 01 and just past it, with known answers.

use crate::{Case, Known, GENEROUS_WORDS};
use corpus::lawful::{buried, file_a, font_fields, font_readers, page_to, PAGE_READERS};
use corpus::readers::{
    dictionary_of, list_of, nullable_of, BOOLEAN, BYTE, CHAR, DATE_TIME, DECIMAL, STRING, TEXTURE2D,
};
use corpus::values::*;
use corpus::writer::{write, File, Part, Role, Value, WORDS_PER_ROW};

/// A case with a name.
pub struct Limit {
    pub name: String,
    pub case: Case,
}

pub fn cases() -> Vec<Limit> {
    let mut limits = counts();
    limits.extend(numbers());
    limits.extend(depths_and_rows());
    limits.extend(fixed_values());
    limits.extend(characters());
    limits.extend(texts());
    limits.extend(textures());
    limits.extend(ids());
    limits.extend(fonts());
    limits.extend(orders());
    limits.extend(longest_files());
    limits.extend(crate::padding::limits());
    limits.extend(crate::meshes::limits());
    limits
}

/// A file that must be accepted, or refused at the place marked in it where a number is given.
pub(crate) fn limit(name: impl Into<String>, refusal: u32, file: File) -> Limit {
    let written = write(&file);
    let known = if refusal == 0 {
        Known::Accepted {
            rows: written.rows,
            readers: written.readers,
            shared: written.shared,
            padding: written.padding,
        }
    } else {
        let place = written.fault.expect("a damaged file marks its fault");
        Known::Refused {
            number: refusal,
            place,
        }
    };
    Limit {
        name: name.into(),
        case: Case {
            bytes: written.bytes,
            words: GENEROUS_WORDS,
            known: Some(known),
        },
    }
}

pub(crate) fn alone<N: AsRef<str>>(readers: &[N], primary: Value) -> File {
    file(readers, primary, vec![])
}

/// The refusal number past a bound, 0 within it.
fn past(bound: bool, number: u32) -> u32 {
    if bound {
        number
    } else {
        0
    }
}

/// Reader count, shared count, name length, name levels, versions.
fn counts() -> Vec<Limit> {
    let mut limits = Vec::new();
    for count in [0, 1, 63, 64, 65, 66] {
        let mut file = alone(&vec![BYTE; count], null());
        file.reader_count.insert(0, Part::Fault);
        limits.push(limit(format!("{count} readers"), past(count > 64, 9), file));
    }
    for count in [0, 1, 127, 128, 255, 256, 257, 258] {
        let mut file = file::<&str>(&[], null(), vec![null(); count]);
        file.shared_count.insert(0, Part::Fault);
        limits.push(limit(
            format!("{count} shared objects"),
            past(count > 256, 9),
            file,
        ));
    }
    for length in [100, 127, 128, 1023, 1024, 1025, 1026] {
        let name = format!("{BYTE},{}", "x".repeat(length - BYTE.len() - 1));
        let mut file = alone(&[name], null());
        file.readers[0].insert(0, Part::Fault);
        limits.push(limit(
            format!("name of {length} bytes"),
            past(length > 1024, 9),
            file,
        ));
    }
    let mut nameless = alone(&[""], null());
    nameless.readers[0].insert(0, Part::Fault);
    limits.push(limit("name of no byte", 9, nameless));
    for levels in 2..12 {
        let name = corpus::names::nested(levels);
        let mut file = alone(&[&name], null());
        if levels > 8 {
            let level_9 = name
                .match_indices("System.")
                .nth(7)
                .expect("a level-9 part");
            let (before, behind) = name.as_bytes().split_at(level_9.0);
            let halves = [before, behind].map(|half| Part::Data(half.to_vec()));
            file.readers[0].splice(1..2, halves);
            file.readers[0].insert(2, Part::Fault);
        }
        limits.push(limit(
            format!("name of {levels} levels"),
            past(levels > 8, 38),
            file,
        ));
    }
    for bit in 0..32 {
        let mut file = alone(&[BYTE], null());
        file.readers[0][2] = number_field(Role::ReaderVersion, 1 << bit);
        file.readers[0].insert(2, Part::Fault);
        limits.push(limit(format!("version with bit {bit}"), 12, file));
    }
    limits
}

/// Seven-bit numbers of five bytes, as type ids.
fn numbers() -> Vec<Limit> {
    let null_in = |bytes: &[u8]| {
        let id = Part::Field(Role::FreeTypeId, bytes.to_vec());
        alone(&[BYTE], value(0, vec![Part::Fault, id]))
    };
    let byte_object = padded(5, object(1, byte(7)));
    vec![
        limit("0 in one byte", 0, alone(&[BYTE], null())),
        limit("0 in two bytes", 0, alone(&[BYTE], padded(2, null()))),
        limit("0 in five bytes", 0, alone(&[BYTE], padded(5, null()))),
        limit("1 in five bytes", 0, alone(&[BYTE], byte_object)),
        limit(
            "the largest number",
            13,
            null_in(&[0xFF, 0xFF, 0xFF, 0xFF, 0x0F]),
        ),
        limit("fifth byte 10", 8, null_in(&[0xFF, 0xFF, 0xFF, 0xFF, 0x10])),
        limit(
            "fifth byte 10 of 0",
            8,
            null_in(&[0x80, 0x80, 0x80, 0x80, 0x10]),
        ),
        limit("fifth byte 80", 8, null_in(&[0x80, 0x80, 0x80, 0x80, 0x80])),
        limit(
            "six bytes",
            8,
            null_in(&[0x80, 0x80, 0x80, 0x80, 0x80, 0x00]),
        ),
        limit(
            "cut after four bytes",
            1,
            null_in(&[0x80, 0x80, 0x80, 0x80]),
        ),
        limit("cut after one byte", 1, null_in(&[0x80])),
        limit("cut before its start", 1, null_in(&[])),
    ]
}

fn depths_and_rows() -> Vec<Limit> {
    let mut limits = Vec::new();
    for depth in [1, 2, 31, 32, 33, 40] {
        let mut file = alone(&[list_of("System.Object")], buried(depth, null()));
        if depth == 33 {
            file.objects[0] = buried(33, faulty(null()));
        }
        if depth == 40 {
            file.objects[0] = buried(33, faulty(buried(8, null())));
        }
        limits.push(limit(format!("depth {depth}"), past(depth > 32, 18), file));
    }
    for depth in [2, 31, 32] {
        for before in [0, 1, 40] {
            let file = alone(&[list_of("System.Object")], among(depth, before, null()));
            let mut limit = limit(format!("depth {depth} behind {before}"), 0, file);
            limit.case.words = WORDS_PER_ROW * 2048;
            limits.push(limit);
        }
    }
    let deep = alone(&[list_of("System.Object")], among(33, 0, faulty(null())));
    limits.push(limit("depth 33 before others", 18, deep));
    for rows in [1, 2, 1024, 1025, 65_535, 65_536, 65_537] {
        for room in [1, 1024, 65_536, 70_000] {
            let room_used = room.min(65_536);
            let mut elements = vec![byte(1); rows - 1];
            if rows > room_used {
                elements[room_used - 1] = faulty(byte(1));
            }
            let file = alone(&[list_of("System.Byte")], object(1, list(elements)));
            let number = past(rows > room_used, 19);
            let mut limit = limit(format!("{rows} rows in {room}"), number, file);
            limit.case.words = WORDS_PER_ROW * room;
            limits.push(limit);
        }
    }
    let mut no_room = file_a();
    no_room.objects = vec![faulty(null())];
    let mut no_room = limit("no row", 19, no_room);
    no_room.case.words = WORDS_PER_ROW - 1;
    limits.push(no_room);
    limits
}

/// A value at a depth, in lists of 41 objects: so many nulls stand before it at each level, which a long list takes at once, and the others behind it.
fn among(depth: u32, before: usize, innermost: Value) -> Value {
    let mut value = innermost;
    for _ in 1..depth {
        let mut elements = vec![null(); 41];
        elements[before] = value;
        value = object(1, list(elements));
    }
    value
}

fn fixed_values() -> Vec<Limit> {
    let mut limits = Vec::new();
    for byte in 0..=255 {
        let flag = fixed(11, &[byte]);
        let file = alone(&[BOOLEAN], object(1, faulty(flag)));
        limits.push(limit(format!("Boolean {byte}"), past(byte > 1, 15), file));
        let mut nullable = something(fixed(1, &[9]));
        if byte != 1 {
            nullable = value(16, vec![Part::Field(Role::NullableFlag, vec![byte])]);
        }
        let file = alone(&[nullable_of("System.Byte")], object(1, faulty(nullable)));
        limits.push(limit(format!("nullable {byte}"), past(byte > 1, 15), file));
    }
    let last = 3_155_378_975_999_999_999;
    for zone in 0..4 {
        for ticks in [0, 1, last - 1, last, last + 1, (1 << 62) - 1] {
            let file = alone(&[DATE_TIME], object(1, faulty(date_time(zone, ticks))));
            let number = past(zone > 2 || ticks > last, 15);
            limits.push(limit(format!("DateTime {zone} {ticks}"), number, file));
        }
    }
    for scale in [0, 1, 27, 28, 29, 31, 32, 128, 255] {
        let words = [1, 2, 3, scale << 16];
        let file = alone(&[DECIMAL], object(1, faulty(decimal(words))));
        limits.push(limit(
            format!("Decimal scale {scale}"),
            past(scale > 28, 15),
            file,
        ));
    }
    for bit in 0..32 {
        let file = alone(&[DECIMAL], object(1, faulty(decimal([0, 0, 0, 1 << bit]))));
        let lawful = bit == 31 || (16..=20).contains(&bit);
        limits.push(limit(format!("Decimal bit {bit}"), past(!lawful, 15), file));
    }
    limits
}

/// The first and last characters of every length, and what lies just past them.
const CHARACTERS: &[(bool, &[u8])] = &[
    (true, &[0x00]),
    (true, &[0x7F]),
    (false, &[0x80]),
    (false, &[0xBF]),
    (false, &[0xC0, 0x80]),
    (false, &[0xC1, 0xBF]),
    (true, &[0xC2, 0x80]),
    (true, &[0xC2, 0xBF]),
    (false, &[0xC2, 0x7F]),
    (false, &[0xC2, 0xC0]),
    (true, &[0xDF, 0x80]),
    (true, &[0xDF, 0xBF]),
    (false, &[0xE0, 0x80, 0x80]),
    (false, &[0xE0, 0x9F, 0xBF]),
    (true, &[0xE0, 0xA0, 0x80]),
    (true, &[0xE0, 0xBF, 0xBF]),
    (false, &[0xE0, 0xC0, 0x80]),
    (false, &[0xE1, 0x7F, 0x80]),
    (true, &[0xE1, 0x80, 0x80]),
    (true, &[0xE1, 0xBF, 0xBF]),
    (false, &[0xE1, 0x80, 0x7F]),
    (false, &[0xE1, 0x80, 0xC0]),
    (true, &[0xEC, 0xBF, 0xBF]),
    (true, &[0xED, 0x80, 0x80]),
    (true, &[0xED, 0x9F, 0xBF]),
    (false, &[0xED, 0xA0, 0x80]),
    (false, &[0xED, 0xBF, 0xBF]),
    (true, &[0xEE, 0x80, 0x80]),
    (true, &[0xEF, 0xBB, 0xBF]),
    (true, &[0xEF, 0xBF, 0xBE]),
    (true, &[0xEF, 0xBF, 0xBF]),
];

/// Characters of four bytes, which a text takes and a Char does not.
const LONG_CHARACTERS: &[(bool, &[u8])] = &[
    (false, &[0xF0, 0x80, 0x80, 0x80]),
    (false, &[0xF0, 0x8F, 0xBF, 0xBF]),
    (true, &[0xF0, 0x90, 0x80, 0x80]),
    (true, &[0xF0, 0xBF, 0xBF, 0xBF]),
    (false, &[0xF0, 0x90, 0x7F, 0x80]),
    (false, &[0xF0, 0x90, 0x80, 0xC0]),
    (true, &[0xF1, 0x80, 0x80, 0x80]),
    (true, &[0xF3, 0xBF, 0xBF, 0xBF]),
    (true, &[0xF4, 0x80, 0x80, 0x80]),
    (true, &[0xF4, 0x8F, 0xBF, 0xBF]),
    (false, &[0xF4, 0x90, 0x80, 0x80]),
    (false, &[0xF5, 0x80, 0x80, 0x80]),
    (false, &[0xF8, 0x88, 0x80, 0x80]),
    (false, &[0xFF, 0xBF, 0xBF, 0xBF]),
];

fn characters() -> Vec<Limit> {
    let mut limits = Vec::new();
    let char_file = |bytes: &[u8]| alone(&[CHAR], object(1, faulty(char_bytes(bytes))));
    for (lawful, bytes) in CHARACTERS {
        let name = format!("Char {bytes:02X?}");
        limits.push(limit(name, past(!lawful, 15), char_file(bytes)));
    }
    for (_, bytes) in LONG_CHARACTERS {
        limits.push(limit(format!("Char {bytes:02X?}"), 15, char_file(bytes)));
    }
    let cut: [&[u8]; 5] = [&[], &[0xC2], &[0xE2], &[0xE2, 0x82], &[0xE2, 0x00]];
    for bytes in cut {
        limits.push(limit(format!("Char cut {bytes:02X?}"), 1, char_file(bytes)));
    }
    limits
}

fn texts() -> Vec<Limit> {
    let mut limits = Vec::new();
    let text_file = |bytes: &[u8]| alone(&[STRING], object(1, faulty(text_bytes(bytes))));
    for (lawful, bytes) in CHARACTERS.iter().chain(LONG_CHARACTERS) {
        for before in [0, 1, 7, 8, 9, 15] {
            for behind in [0, 1, 8] {
                let mut text = vec![b'a'; before];
                text.extend_from_slice(bytes);
                text.resize(text.len() + behind, b'z');
                let name = format!("text {before} {bytes:02X?} {behind}");
                limits.push(limit(name, past(!lawful, 15), text_file(&text)));
            }
        }
        for end in 1..bytes.len() {
            let name = format!("text that ends inside {bytes:02X?} after {end}");
            limits.push(limit(name, 15, text_file(&bytes[..end])));
        }
    }
    for length in [0, 1, 127, 128, 16_383, 16_384] {
        let text = vec![b'x'; length];
        limits.push(limit(
            format!("text of {length} bytes"),
            0,
            text_file(&text),
        ));
        let claims_more = value(
            13,
            vec![
                Part::Fault,
                seven(Role::TextCount, length as u32 + 1),
                Part::Data(text.clone()),
            ],
        );
        let file = alone(&[STRING], object(1, claims_more));
        limits.push(limit(
            format!("text of {length} bytes claims one more"),
            1,
            file,
        ));
    }
    let claims_less = value(
        13,
        vec![
            seven(Role::TextCount, 2),
            Part::Data(b"Hi".to_vec()),
            Part::Fault,
            Part::Data(b"!".to_vec()),
        ],
    );
    limits.push(limit(
        "text claims one less",
        20,
        alone(&[STRING], object(1, claims_less)),
    ));
    limits
}

fn textures() -> Vec<Limit> {
    let mut limits = Vec::new();
    let texture_file = |texture| alone(&[TEXTURE2D], object(1, texture));
    let fields = |format, width, height, levels, fault: usize| {
        let mut parts = vec![
            number_field(Role::SurfaceFormat, format),
            number_field(Role::Side, width),
            number_field(Role::Side, height),
            number_field(Role::LevelCount, levels),
        ];
        parts.insert(fault, Part::Fault);
        texture_file(value(32, parts))
    };
    for format in [19, 20, 0x100, 0x8000_0000, u32::MAX] {
        limits.push(limit(
            format!("format {format}"),
            15,
            fields(format, 1, 1, 1, 0),
        ));
    }
    for side in [0, 4097, 0x8000_0000, u32::MAX] {
        limits.push(limit(
            format!("width {side}"),
            15,
            fields(12, side, 1, 1, 1),
        ));
        limits.push(limit(
            format!("height {side}"),
            15,
            fields(12, 1, side, 1, 2),
        ));
    }
    for (width, height, chain) in [
        (1, 1, 1),
        (2, 1, 2),
        (3, 1, 2),
        (1, 4, 3),
        (5, 3, 3),
        (7, 8, 4),
        (9, 15, 4),
        (255, 1, 8),
        (256, 2, 9),
        (1, 2047, 11),
        (4095, 1, 12),
        (4096, 1, 13),
        (1, 4096, 13),
    ] {
        for levels in 1..=chain {
            let name = format!("{width} by {height} with {levels} levels");
            limits.push(limit(
                name,
                0,
                texture_file(texture(12, width, height, levels)),
            ));
        }
        for levels in [0, chain + 1, u32::MAX] {
            let name = format!("{width} by {height} with {levels} levels");
            limits.push(limit(name, 15, fields(12, width, height, levels, 3)));
        }
    }
    for format in 0..19 {
        for (width, height) in [(1, 1), (4, 4), (5, 3), (8, 9)] {
            let name = format!("format {format} of {width} by {height}");
            limits.push(limit(
                name,
                0,
                texture_file(texture(format, width, height, 1)),
            ));
            let right = image_bytes(format, width, height, 0);
            for wrong in [right - 1, right + 1, 0] {
                let level = faulty(image_level(wrong));
                let file = texture_file(texture_of(format, width, height, vec![level]));
                let name = format!("format {format} of {width} by {height} with {wrong} bytes");
                limits.push(limit(name, 15, file));
            }
        }
    }
    limits
}

/// Type ids, resource ids and element counts.
fn ids() -> Vec<Limit> {
    let mut limits = Vec::new();
    for id in 0..6 {
        let element = if id == 0 { null() } else { object(id, byte(5)) };
        let file = alone(&[BYTE; 3], faulty(element));
        limits.push(limit(format!("type id {id} of 3"), past(id > 3, 13), file));
    }
    for shared in [0, 1, 2, 200, 256] {
        for id in [0, shared, shared + 1] {
            let page = page(
                null(),
                rectangle([0; 4]),
                faulty(reference(id)),
                reference(0),
            );
            let file = file(
                &PAGE_READERS,
                object(1, page),
                vec![null(); shared as usize],
            );
            let name = format!("resource id {id} of {shared}");
            limits.push(limit(name, past(id > shared, 16), file));
        }
    }
    for count in [0, 1, 2, 300] {
        let elements = || vec![uint16(7); count];
        let name = format!("list of {count}");
        let file = alone(&[list_of("System.UInt16")], object(1, list(elements())));
        limits.push(limit(name, 0, file));

        let mut claims_more = counted(18, count as u32 + 1, elements());
        claims_more.parts.push(Part::Child(faulty(fixed(4, &[1]))));
        let file = alone(&[list_of("System.UInt16")], object(1, claims_more));
        limits.push(limit(format!("list of {count} claims one more"), 1, file));
    }
    let entries = vec![(uint16(1), byte(1)), (uint16(2), byte(2))];
    let mut half = dictionary(entries);
    half.parts[0] = number_field(Role::ElementCount, 3);
    half.parts.push(Part::Child(uint16(3)));
    half.parts.push(Part::Child(faulty(value(1, vec![]))));
    let names = [dictionary_of("System.UInt16", "System.Byte")];
    limits.push(limit(
        "dictionary without its last value",
        1,
        alone(&names, object(1, half)),
    ));
    limits
}

fn fonts() -> Vec<Limit> {
    let mut limits = Vec::new();
    let font_file = |fields| alone(&font_readers(), object(1, faulty(font(fields))));
    let pairs = [
        ('a', 'b', 0),
        ('a', 'a', 22),
        ('b', 'a', 22),
        ('\u{7F}', '\u{80}', 0),
        ('\u{80}', '\u{7F}', 22),
        ('\u{7FF}', '\u{800}', 0),
        ('\u{800}', '\u{7FF}', 22),
        ('\u{D7FF}', '\u{E000}', 0),
        ('\u{FFFE}', '\u{FFFF}', 0),
        ('\u{FFFF}', '\0', 22),
        ('\0', '\u{FFFF}', 0),
    ];
    for (first, second, number) in pairs {
        let name = format!("font of {first:?} and {second:?}");
        let characters = format!("{first}{second}");
        limits.push(limit(name, number, font_file(font_fields(&characters))));
    }
    // The font's default character need not be among its characters.
    let mut fields = font_fields("a");
    fields.default_character = something(character('b'));
    limits.push(limit("font with another default", 0, font_file(fields)));
    let ring = file(&PAGE_READERS, object(1, page_to("p", 0, 1)), vec![null()]);
    limits.push(limit("page to a null resource", 0, ring));
    limits
}

/// Two faults in one file, of which the first by 01 is given.
fn orders() -> Vec<Limit> {
    let deep_bytes = counted(18, 9, vec![faulty(value(1, vec![]))]);
    let names = [list_of("System.Object"), list_of("System.Byte")];
    let deep = alone(&names, buried(32, object(2, deep_bytes)));
    let mut deep = limit("18 before 19 and 1", 18, deep);
    deep.case.words = WORDS_PER_ROW * 32;

    let mut short_of_rows = file_a();
    short_of_rows.shared_count = vec![seven(Role::SharedCount, 1)];
    short_of_rows.objects.push(faulty(value(0, vec![])));
    let mut short_of_rows = limit("19 before 1", 19, short_of_rows);
    short_of_rows.case.words = WORDS_PER_ROW;

    let no_texture = |default_character| {
        let mut fields = font_fields("a");
        fields.texture = null();
        fields.default_character = default_character;
        fields
    };
    let flag = Part::Field(Role::NullableFlag, vec![2]);
    let last_field = font(no_texture(value(16, vec![Part::Fault, flag])));
    let bad_font = object(1, faulty(font(no_texture(nothing()))));
    let next_object = file(&font_readers(), bad_font, vec![object(99, byte(1))]);

    let both_ids = page(
        null(),
        rectangle([0; 4]),
        reference(1),
        faulty(reference(3)),
    );
    let both_ids = file(
        &PAGE_READERS,
        object(1, both_ids),
        vec![object(2, text("x"))],
    );

    let size = number_field(Role::LevelSize, 5);
    let level = value(35, vec![Part::Fault, size, Part::Data(vec![0; 3])]);
    let level = object(1, texture_of(0, 1, 1, vec![level]));
    vec![
        deep,
        short_of_rows,
        limit(
            "15 before 22",
            15,
            alone(&font_readers(), object(1, last_field)),
        ),
        limit("22 before 13", 22, next_object),
        limit("16 before 17", 16, both_ids),
        limit("a level's 15 before its 1", 15, alone(&[TEXTURE2D], level)),
    ]
}

/// A file of 16,777,216 bytes and one that is a byte longer.
fn longest_files() -> Vec<Limit> {
    let longest = 16_777_216;
    let text_place = 62 + 4;
    let file = |length: usize| {
        let text = text_bytes(&vec![b'x'; length - text_place]);
        alone(&[STRING], object(1, text))
    };
    let bytes = write(&file(longest + 1)).bytes;
    let known = Some(Known::Refused {
        number: 9,
        place: 0,
    });
    let words = GENEROUS_WORDS;
    let name = "the longest file and one byte".to_string();
    vec![
        limit("the longest file", 0, file(longest)),
        Limit {
            name,
            case: Case {
                bytes,
                words,
                known,
            },
        },
    ]
}
