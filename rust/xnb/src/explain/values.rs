//! Values without objects below them, and the rule that each may break.

use super::cursor::{hex, Cursor, Step, Stop};
use crate::kind::Kind;
use crate::numbers::unsigned;
use crate::picture::SurfaceFormat;
use crate::refusal::Refusal::BadValue;
use crate::time::LAST_TICK;

const LARGEST_SCALE: u64 = 28;
const LAST_FORMAT: u32 = SurfaceFormat::HalfVector4 as u32;
const LONGEST_SIDE: u32 = 4096;

/// A value of fixed size is one field.
pub fn take_fixed<'f>(cursor: &mut Cursor<'f>, kind: Kind) -> Step<'f, ()> {
    let start = cursor.at;
    let size = kind.size().ok_or(Stop::Lost)?;
    let bytes = cursor.take(size, format_args!("a value of kind {kind}"))?;
    cursor.meet(BadValue, start, || match kind {
        Kind::Boolean => wrong_flag("Boolean", bytes[0]),
        Kind::DateTime => wrong_date_time(unsigned(bytes)),
        Kind::Decimal => wrong_decimal(unsigned(&bytes[12..])),
        _ => None,
    })
}

/// An enum, whose size its type gives.
pub fn take_enum<'f>(cursor: &mut Cursor<'f>, size: usize) -> Step<'f, ()> {
    let kind = Kind::Enum;
    cursor.take(size, format_args!("a value of kind {kind}"))?;
    Ok(())
}

fn wrong_flag(kind: &str, flag: u8) -> Option<String> {
    (flag > 1).then(|| format!("{kind}: the byte is {flag}; only 0 and 1 are taken"))
}

fn wrong_date_time(packed: u64) -> Option<String> {
    let (zone, ticks) = (packed >> 62, packed & ((1 << 62) - 1));
    if zone > 2 {
        return Some(format!(
            "DateTime: the high two bits are {zone}, the limit 2"
        ));
    }
    (ticks > LAST_TICK).then(|| format!("DateTime: the ticks are {ticks}, the limit {LAST_TICK}"))
}

fn wrong_decimal(fourth: u64) -> Option<String> {
    let (scale, others) = (fourth >> 16 & 0xFF, fourth & 0x7F00_FFFF);
    if others != 0 {
        return Some(format!(
            "Decimal: the fourth word is {fourth:08X}, bits 0 to 15 and 24 to 30 must be zero"
        ));
    }
    (scale > LARGEST_SCALE)
        .then(|| format!("Decimal: the scale is {scale}, the limit {LARGEST_SCALE}"))
}

pub fn take_nullable_flag<'f>(cursor: &mut Cursor<'f>) -> Step<'f, u8> {
    let start = cursor.at;
    let flag = cursor.take(1, "the first byte of a value of kind Nullable")?[0];
    cursor.meet(BadValue, start, || wrong_flag("Nullable", flag))?;
    Ok(flag)
}

/// A Char: its lead byte is judged first, then its end, then its other bytes.
pub fn take_char<'f>(cursor: &mut Cursor<'f>) -> Step<'f, ()> {
    let start = cursor.at;
    let lead = cursor.take(1, "a value of kind Char")?[0];
    let size = match lead {
        0x00..=0x7F => 1,
        0xC2..=0xDF => 2,
        0xE0..=0xEF => 3,
        _ => {
            cursor.meet(BadValue, start, || {
                Some(format!(
                    "Char: the first byte is {lead:02X}, no character of 1 to 3 bytes begins so"
                ))
            })?;
            return Err(Stop::Lost);
        }
    };
    cursor.at = start;
    let bytes = cursor.take(size, format_args!("a Char that begins with {lead:02X}"))?;
    cursor.meet(BadValue, start, || {
        let broken = std::str::from_utf8(bytes).is_err();
        broken.then(|| format!("Char: the bytes are {}, no character in UTF-8", hex(bytes)))
    })
}

/// A String: its missing bytes and its bad bytes are both placed at its count.
pub fn take_text<'f>(cursor: &mut Cursor<'f>) -> Step<'f, ()> {
    let start = cursor.at;
    let count = cursor.take_seven("the count of a text")? as usize;
    let first = cursor.at;
    let text = cursor.take_placed(count, start, "the text")?;
    cursor.meet(BadValue, start, || {
        let good = std::str::from_utf8(text).err()?.valid_up_to();
        let (at, byte) = (first + good, text[good]);
        Some(format!(
            "String: the text is not UTF-8 from byte {at} on, which is {byte:02X}"
        ))
    })
}

/// The four numbers that a texture begins with.
pub struct Image {
    format: SurfaceFormat,
    width: u32,
    height: u32,
    pub levels: u32,
}

pub fn take_image<'f>(cursor: &mut Cursor<'f>) -> Step<'f, Image> {
    let format = take_within(cursor, "format", 0, LAST_FORMAT)?;
    let format = SurfaceFormat::of_code(format).ok_or(Stop::Lost)?;
    let width = take_within(cursor, "width", 1, LONGEST_SIDE)?;
    let height = take_within(cursor, "height", 1, LONGEST_SIDE)?;
    let chain = u32::BITS - width.max(height).leading_zeros();
    let levels = take_within(cursor, "level count", 1, chain)?;
    Ok(Image {
        format,
        width,
        height,
        levels,
    })
}

/// A field of four bytes that must lie within bounds.
fn take_within<'f>(cursor: &mut Cursor<'f>, what: &str, least: u32, most: u32) -> Step<'f, u32> {
    let start = cursor.at;
    let number = cursor.take_u32(format_args!("the {what} of a Texture2D"))?;
    if (least..=most).contains(&number) {
        return Ok(number);
    }
    cursor.meet(BadValue, start, || {
        Some(format!(
            "Texture2D: the {what} is {number}; only {least} to {most} are taken"
        ))
    })?;
    Err(Stop::Lost)
}

/// A level: its size field is judged before its data's end.
pub fn take_level<'f>(cursor: &mut Cursor<'f>, image: &Image, level: u32) -> Step<'f, ()> {
    let start = cursor.at;
    let size = cursor.take_u32("the size of an image level")?;
    let [width, height] = [image.width, image.height].map(|side| (side >> level).max(1));
    let lawful = level_size(image.format, width, height);
    cursor.meet(BadValue, start, || {
        let format = image.format.code();
        (size != lawful).then(|| {
            format!(
                "ImageLevel: the size is {size}, {width} by {height} in format {format} takes {lawful}"
            )
        })
    })?;
    cursor.take_placed(size as usize, start, "the data of an image level")?;
    Ok(())
}

fn level_size(format: SurfaceFormat, width: u32, height: u32) -> u32 {
    let side = if format.is_in_blocks() { 4 } else { 1 };
    width.div_ceil(side) * height.div_ceil(side) * format.bytes() as u32
}

/// The first two characters of which the second does not rise.
pub fn characters_that_do_not_rise(text: &[u8]) -> Option<String> {
    let text = std::str::from_utf8(text).ok()?;
    let pairs = text.chars().zip(text.chars().skip(1));
    let (one, two) = pairs.into_iter().find(|(one, two)| one >= two)?;
    let (left, right) = (u32::from(one), u32::from(two));
    Some(format!(
        "the characters do not rise: U+{right:04X} comes behind U+{left:04X}"
    ))
}
