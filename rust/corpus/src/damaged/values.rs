//! 15 and 22: values out of their rule.

use super::{bad, faulty_field};
use crate::lawful::{font_fields, font_readers};
use crate::readers::{list_of, nullable_of, BOOLEAN, CHAR, DATE_TIME, DECIMAL, STRING, TEXTURE2D};
use crate::sample::{refused, Sample};
use crate::values::*;
use crate::writer::{Part, Role, Value};

pub fn samples() -> Vec<Sample> {
    let mut samples = flags();
    samples.extend(characters());
    samples.extend(texts());
    samples.extend(packed_values());
    samples.extend(texture_fields());
    samples.extend(level_sizes());
    samples.extend(fonts());
    samples
}

/// 15 at an object's first raw byte.
fn bad_raw(name: &str, reader: &str, raw: Value) -> Sample {
    bad(name, 15, &[reader], object(1, faulty(raw)))
}

fn flags() -> Vec<Sample> {
    let second = object(1, list(vec![boolean(true), faulty(fixed(11, &[2]))]));
    let flag = object(1, faulty_field(16, Role::NullableFlag, &[2]));
    let nullable = nullable_of("System.Byte");
    vec![
        bad_raw("boolean-2", BOOLEAN, fixed(11, &[2])),
        bad("boolean-in-list", 15, &[list_of("System.Boolean")], second).further(),
        bad("nullable-flag-2", 15, &[nullable], flag),
    ]
}

fn characters() -> Vec<Sample> {
    let bad = |name, bytes: &[u8]| bad_raw(name, CHAR, char_bytes(bytes));
    vec![
        bad("char-surrogate", &[0xED, 0xA0, 0x80]),
        bad("char-of-four-bytes", &[0xF0, 0x9F, 0x98, 0x80]),
        bad("char-lead-c1", &[0xC1]).further(),
        bad("char-lead-80", &[0x80]).further(),
        bad("char-too-long-form", &[0xE0, 0x9F, 0xBF]).further(),
        bad("char-bad-second-byte", &[0xC3, 0x28]).further(),
    ]
}

fn texts() -> Vec<Sample> {
    let bad = |name, bytes: &[u8]| bad_raw(name, STRING, text_bytes(bytes));
    vec![
        bad("text-surrogate", &[0x41, 0xED, 0xBF, 0xBF]).further(),
        bad("text-ends-in-lead", &[0x41, 0xE2, 0x82]),
        bad("text-past-10ffff", &[0xF4, 0x90, 0x80, 0x80]),
        bad("text-too-long-form", &[0xC0, 0x80]).further(),
    ]
}

/// DateTime and Decimal.
fn packed_values() -> Vec<Sample> {
    let past_last_tick = 3_155_378_976_000_000_000;
    let fourth_word = |name, word| bad_raw(name, DECIMAL, decimal([0, 0, 0, word]));
    vec![
        bad_raw("datetime-ticks", DATE_TIME, date_time(0, past_last_tick)),
        bad_raw("datetime-zone-3", DATE_TIME, date_time(3, 0)),
        fourth_word("decimal-scale-29", 0x001D_0000),
        fourth_word("decimal-bit-30", 0x4000_0000),
    ]
}

/// A texture's four fields, of which one is at fault.
fn texture_fields() -> Vec<Sample> {
    let bad = |name, numbers: [u32; 4], fault: usize| {
        let roles = [
            Role::SurfaceFormat,
            Role::Side,
            Role::Side,
            Role::LevelCount,
        ];
        let fields = roles.iter().zip(numbers);
        let mut parts: Vec<Part> = fields.map(|(role, it)| number_field(*role, it)).collect();
        parts.insert(fault, Part::Fault);
        bad(name, 15, &[TEXTURE2D], object(1, value(32, parts)))
    };
    vec![
        bad("format-19", [19, 0, 0, 0], 0),
        bad("format-below-0", [u32::MAX, 1, 1, 1], 0).further(),
        bad("width-0", [0, 0, 1, 1], 1).further(),
        bad("width-4097", [0, 4097, 0, 1], 1),
        bad("height-0", [0, 1, 0, 0], 2),
        bad("height-4097", [0, 1, 4097, 1], 2).further(),
        bad("no-level", [0, 5, 3, 0], 3).further(),
        bad("four-levels-of-5-by-3", [0, 5, 3, 4], 3),
    ]
}

fn level_sizes() -> Vec<Sample> {
    let bad = |name, levels| {
        let texture = object(1, texture_of(0, 2, 2, levels));
        bad(name, 15, &[TEXTURE2D], texture)
    };
    let size = number_field(Role::LevelSize, 17);
    let first = value(35, vec![Part::Fault, size, Part::Data(vec![0; 3])]);
    let second = vec![image_level(16), faulty(image_level(1))];
    vec![
        bad("level-size-before-its-data", vec![first]),
        bad("second-level-size", second).further(),
    ]
}

/// A font by the readers of fonts, whose first raw byte is the expected fault.
fn bad_font(fields: Font) -> Value {
    object(1, faulty(font(fields)))
}

/// 22, at the font's first raw byte.
fn fonts() -> Vec<Sample> {
    let changed = |name, change: &dyn Fn(&mut Font)| {
        let mut fields = font_fields("ab");
        change(&mut fields);
        bad(name, 22, &font_readers(), bad_font(fields))
    };
    let boxes = |count| bound_object(3, list(vec![rectangle([0; 4]); count]));
    let letters = |letters| font_fields(letters).characters;
    let no_kerning = || font_fields("").kerning;
    vec![
        changed("null-texture", &|font| font.texture = null()),
        changed("null-glyphs", &|font| font.glyphs = null()),
        changed("null-cropping", &|font| font.cropping = null()),
        changed("null-characters", &|font| font.characters = null()),
        changed("null-kerning", &|font| font.kerning = null()),
        changed("fewer-glyphs", &|font| font.glyphs = boxes(1)),
        changed("more-cropping", &|font| font.cropping = boxes(3)),
        changed("fewer-kerning", &|font| font.kerning = no_kerning()),
        changed("equal-characters", &|font| font.characters = letters("aa")),
        changed("falling-characters", &|font| {
            font.characters = letters("€a")
        }),
        empty_font_without_cropping(),
        font_before_bytes_left_over(),
    ]
}

fn empty_font_without_cropping() -> Sample {
    let mut fields = font_fields("");
    fields.cropping = null();
    let name = "null-cropping-of-no-character";
    bad(name, 22, &font_readers(), bad_font(fields)).further()
}

fn font_before_bytes_left_over() -> Sample {
    let mut fields = font_fields("ab");
    fields.texture = null();
    let mut file = file(&font_readers(), bad_font(fields), vec![]);
    file.rest = vec![0];
    refused("before-bytes-left-over", 22, file)
}
