//! Files whose padding is known by how they are made: Req 06.

use crate::limits::{alone, limit, Limit};
use crate::maker::{make, Planted};
use crate::random::Random;
use crate::{lawful_case, Case, Known, GENEROUS_WORDS};
use corpus::lawful::pad_file;
use corpus::readers::{list_of, BYTE, PAGE, STRING};
use corpus::values::*;
use corpus::writer::{set_length, seven_bytes, write, File, Role, Seven, WORDS_PER_ROW};

/// No number has more bytes.
const LONGEST_NUMBER: usize = 5;

/// The case of a seed: a lawful file whose numbers are padded, or one that is refused behind padded numbers.
pub fn case(seed: u64) -> Case {
    let mut random = Random::new(seed);
    match random.below(10) {
        0 => planted_case(&mut random, Planted::WrongResource, 17),
        1 => planted_case(&mut random, Planted::TooDeep, 18),
        2 => left_over(&mut random),
        3 => too_few_rows(&mut random),
        _ => padded_case(&mut random, Planted::Nothing),
    }
}

/// Which numbers of a file get more bytes than they need.
enum Style {
    None,
    Each,
    /// To five bytes each.
    Longest,
    /// Those at this place among the numbers.
    One(usize),
    Roles(Role),
}

fn some_style(random: &mut Random, numbers: usize) -> Style {
    let roles = [
        Role::ReaderCount,
        Role::NameLength,
        Role::SharedCount,
        Role::FreeTypeId,
        Role::BoundTypeId,
        Role::ResourceId,
        Role::TextCount,
    ];
    match random.below(8) {
        0 => Style::None,
        1 => Style::Longest,
        2..=3 => Style::One(random.below(numbers)),
        4..=5 => Style::Roles(random.pick(&roles)),
        _ => Style::Each,
    }
}

/// Pads the numbers of a file and answers by how many bytes in all.
fn pad(random: &mut Random, file: &mut File) -> usize {
    let mut numbers = 0;
    file.each_seven(&mut |_, _| numbers += 1);
    let style = some_style(random, numbers);
    let mut number = 0;
    let mut sum = 0;
    file.each_seven(&mut |role, seven| {
        let shortest = seven_bytes(Seven { width: 0, ..*seven }).len();
        let most = LONGEST_NUMBER - shortest;
        let amount = match style {
            Style::Longest => most,
            Style::None => 0,
            Style::One(chosen) if chosen != number => 0,
            Style::Roles(chosen) if chosen != role => 0,
            _ => random.below(most + 1),
        };
        seven.width = shortest + amount;
        number += 1;
        sum += amount;
    });
    sum
}

/// A padded file; where the fault that was asked for found no place, it is lawful.
fn padded_case(random: &mut Random, planted: Planted) -> Case {
    let mut file = make(random, planted, &[]).file;
    let sum = pad(random, &mut file);
    let mut case = lawful_case(random, write(&file));
    if let Some(Known::Accepted { padding, .. }) = &mut case.known {
        *padding = sum;
    }
    case
}

fn planted_case(random: &mut Random, planted: Planted, number: u32) -> Case {
    let mut file = make(random, planted, &[]).file;
    pad(random, &mut file);
    let written = write(&file);
    let (Some(place), true) = (written.fault, written.rows.len() <= 1024) else {
        return padded_case(random, Planted::Nothing);
    };
    Case {
        bytes: written.bytes,
        words: GENEROUS_WORDS,
        known: Some(Known::Refused { number, place }),
    }
}

/// 20: one byte more, behind the last number.
fn left_over(random: &mut Random) -> Case {
    let mut case = padded_case(random, Planted::Nothing);
    let place = case.bytes.len();
    case.bytes.push(random.byte());
    set_length(&mut case.bytes, 0);
    case.known = Some(Known::Refused { number: 20, place });
    case
}

/// 19: no room for the last row.
fn too_few_rows(random: &mut Random) -> Case {
    let mut case = padded_case(random, Planted::Nothing);
    if let Some(Known::Accepted { rows, .. }) = &case.known {
        let last = rows.len() - 1;
        let place = rows[last][1] as usize;
        case.words = WORDS_PER_ROW * last + random.below(WORDS_PER_ROW);
        case.known = Some(Known::Refused { number: 19, place });
    }
    case
}

/// Every number in five bytes and in each other width, at the bounds of counts, lengths, ids and files.
pub fn limits() -> Vec<Limit> {
    let mut limits = Vec::new();
    for (name, file) in files() {
        for width in 1..=LONGEST_NUMBER {
            let mut file = file.clone();
            pad_file(width, &mut file);
            limits.push(limit(format!("{name}, numbers in {width} bytes"), 0, file));
        }
    }
    limits.push(most_padding());
    limits.extend(longest_files());
    limits
}

/// Files whose numbers stand where their shortest form gets a byte more, and at their bounds.
fn files() -> Vec<(String, File)> {
    let mut files = Vec::new();
    for count in [0, 1, 64] {
        let file = alone(&vec![BYTE; count], null());
        files.push((format!("{count} readers"), file));
    }
    for length in [127, 128, 1024] {
        let name = format!("{BYTE},{}", "x".repeat(length - BYTE.len() - 1));
        let file = alone(&[name], object(1, byte(1)));
        files.push((format!("a name of {length} bytes"), file));
    }
    for count in [0, 1, 127, 128, 256] {
        let page = page(
            null(),
            rectangle([0; 4]),
            reference(count),
            reference(count),
        );
        let shared = vec![null(); count as usize];
        let file = file(&[PAGE], object(1, page), shared);
        files.push((format!("{count} shared objects"), file));
    }
    for length in [0, 127, 128, 16_383, 16_384, 2_097_151, 2_097_152] {
        let text = text_bytes(&vec![b'x'; length]);
        let file = alone(&[STRING], object(1, text));
        files.push((format!("a text of {length} bytes"), file));
    }
    files
}

/// As many rows as there are, each a text without bytes whose two numbers have five bytes.
fn most_padding() -> Limit {
    let names = [list_of("System.String"), STRING.to_string()];
    let texts = vec![bound_object(2, text("")); 65_535];
    let mut file = alone(&names, object(1, list(texts)));
    pad_file(LONGEST_NUMBER, &mut file);
    let mut limit = limit("two numbers of five bytes a row", 0, file);
    limit.case.words = WORDS_PER_ROW * 65_536;
    // The reader count, two name lengths, the shared count and the list's type id stand before the texts.
    let sum = 4 * (1 + 2 + 1 + 1) + 8 * 65_535;
    if let Some(Known::Accepted { padding, .. }) = &mut limit.case.known {
        *padding = sum;
    }
    limit
}

/// A file of 16,777,216 bytes with each number in five bytes, and one that is a byte longer.
fn longest_files() -> [Limit; 2] {
    let longest = 16_777_216;
    let before_text = 10 + 5 + 5 + STRING.len() + 4 + 5 + 5 + 5;
    let padded_text = |length: usize| {
        let text = text_bytes(&vec![b'x'; length - before_text]);
        let mut file = alone(&[STRING], object(1, text));
        pad_file(LONGEST_NUMBER, &mut file);
        file
    };
    let mut accepted = limit(
        "the longest file, numbers in 5 bytes",
        0,
        padded_text(longest),
    );
    // The shortest form of the text's count has four bytes.
    if let Some(Known::Accepted { padding, .. }) = &mut accepted.case.known {
        *padding = 4 * 4 + 1;
    }
    let mut refused = limit(
        "the longest file and one byte, numbers in 5 bytes",
        0,
        padded_text(longest + 1),
    );
    refused.case.known = Some(Known::Refused {
        number: 9,
        place: 0,
    });
    [accepted, refused]
}
