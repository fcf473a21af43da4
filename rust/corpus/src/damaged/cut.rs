//! 1: a field runs past the end.

use super::{bad, faulty_field};
use crate::lawful::{file_a, file_b, font_fields, font_readers, PAGE_READERS};
use crate::readers::{
    dictionary_of, list_of, nullable_of, BOOLEAN, BYTE, CHAR, DATE_TIME, MATRIX, PAGE, STRING,
    TEXTURE2D,
};
use crate::sample::{refused, refused_bytes, Sample};
use crate::values::*;
use crate::writer::{write, File, Part, Role, Value};

pub fn samples() -> Vec<Sample> {
    let mut samples = cut_counts();
    samples.extend(cut_readers());
    samples.extend(cut_leaves());
    samples.extend(cut_texts());
    samples.extend(cut_containers());
    samples.extend(cut_graphics());
    samples.extend(cut_pages());
    samples
}

/// The header, both counts and missing objects.
fn cut_counts() -> Vec<Sample> {
    let a = write(&file_a()).bytes;
    let mut no_reader_count = file_a();
    no_reader_count.reader_count = vec![Part::Fault, Part::End];
    let mut half_reader_count = file_a();
    let half = Part::Field(Role::ReaderCount, vec![0x80]);
    half_reader_count.reader_count = vec![Part::Fault, half, Part::End];
    let mut no_shared_count = file_a();
    no_shared_count.shared_count = vec![Part::Fault, Part::End];
    let mut no_shared_object = file_a();
    no_shared_object.shared_count = vec![seven(Role::SharedCount, 1)];
    no_shared_object.objects.push(faulty(missing(0)));
    vec![
        refused_bytes("no-byte", 1, 0, vec![]),
        refused_bytes("nine-bytes", 1, 0, a[..9].to_vec()),
        refused("no-reader-count", 1, no_reader_count),
        refused("half-a-reader-count", 1, half_reader_count).further(),
        refused("no-shared-count", 1, no_shared_count),
        refused("no-shared-object", 1, no_shared_object),
        bad("no-primary", 1, &[PAGE], faulty(missing(0))),
    ]
}

/// A value of which nothing stands in the file.
fn missing(kind: u32) -> Value {
    value(kind, vec![Part::End])
}

/// File B with other parts for its reader, where it ends.
fn ends_in_reader(parts: Vec<Part>) -> File {
    let mut file = file_b();
    file.readers[0] = parts;
    file.readers[0].push(Part::End);
    file
}

fn cut_readers() -> Vec<Sample> {
    let length = || seven(Role::NameLength, STRING.len() as u32);
    let name = || Part::Data(STRING.as_bytes().to_vec());
    let most_of_name = Part::Data(STRING.as_bytes()[1..].to_vec());
    let most_of_version = Part::Field(Role::ReaderVersion, vec![1, 0, 0]);
    let no_name = ends_in_reader(vec![Part::Fault]);
    let name_cut = ends_in_reader(vec![Part::Fault, length(), most_of_name]);
    let no_version = ends_in_reader(vec![length(), name(), Part::Fault]);
    let version_cut = ends_in_reader(vec![length(), name(), Part::Fault, most_of_version]);
    vec![
        refused("no-name", 1, no_name).further(),
        refused("name-cut", 1, name_cut),
        refused("no-version", 1, no_version),
        refused("version-cut", 1, version_cut).further(),
    ]
}

/// An object whose raw value has too few bytes, and wrong ones at that.
fn short(kind: u32, size: usize) -> Value {
    object(1, faulty_field(kind, Role::Fixed(kind), &vec![0xFF; size]))
}

fn cut_leaves() -> Vec<Sample> {
    let four_bytes = [0x81, 0x80, 0x80, 0x80];
    let long_id = faulty_field(0, Role::FreeTypeId, &four_bytes);
    let half_char = faulty_field(12, Role::Character, &[0xE2, 0x28]);
    vec![
        bad("type-id-cut-after-four-bytes", 1, &[BYTE], long_id),
        bad("matrix-cut", 1, &[MATRIX], short(26, 63)),
        bad("datetime-cut-and-wrong", 1, &[DATE_TIME], short(21, 7)),
        bad("no-boolean", 1, &[BOOLEAN], short(11, 0)).further(),
        bad("no-char", 1, &[CHAR], short(12, 0)).further(),
        bad("char-cut-and-wrong", 1, &[CHAR], object(1, half_char)),
    ]
}

/// A text that claims more bytes than there are.
fn greedy_text(count: u32, bytes: &[u8]) -> Value {
    let count = seven(Role::TextCount, count);
    let data = Part::Data(bytes.to_vec());
    object(1, value(13, vec![Part::Fault, count, data]))
}

fn cut_texts() -> Vec<Sample> {
    let wrong_too = greedy_text(u32::MAX, &[0xFF]);
    vec![
        bad("text-cut", 1, &[STRING], greedy_text(4, b"Hi!")),
        bad("text-cut-and-wrong", 1, &[STRING], wrong_too),
    ]
}

fn cut_containers() -> Vec<Sample> {
    let nullable = nullable_of("System.Int32");
    let numbers = list_of("System.Int32");
    let areas = dictionary_of("System.Int32", "Microsoft.Xna.Framework.Rectangle");
    let value_cut = object(1, something(faulty(fixed(5, &[1, 2, 3]))));
    let two_of_three = vec![int32(1), int32(2), faulty(missing(5))];
    let two_of_three = object(1, counted(18, 3, two_of_three));
    let half_entry = object(1, counted(19, 1, vec![int32(1), faulty(missing(30))]));
    vec![
        bad("no-nullable-flag", 1, &[&nullable], short(16, 0)).further(),
        bad("nullable-value-cut", 1, &[&nullable], value_cut),
        bad("list-count-cut", 1, &[&numbers], short(18, 3)).further(),
        bad("list-claims-one-more", 1, &[&numbers], two_of_three),
        bad("dictionary-without-last-value", 1, &[areas], half_entry),
    ]
}

fn cut_graphics() -> Vec<Sample> {
    let height_cut = vec![
        number_field(Role::SurfaceFormat, 0),
        number_field(Role::Side, 1),
        Part::Fault,
        Part::Field(Role::Side, vec![0, 0, 0]),
    ];
    let height_cut = object(1, value(32, height_cut));
    let size = number_field(Role::LevelSize, 16);
    let level_cut = value(35, vec![Part::Fault, size, Part::Data(vec![7; 15])]);
    let level_cut = object(1, texture_of(0, 2, 2, vec![level_cut]));
    let mut fields = font_fields("a");
    fields.default_character = faulty(missing(16));
    let no_default = object(1, font(fields));
    vec![
        bad("texture-height-cut", 1, &[TEXTURE2D], height_cut),
        bad("level-data-cut", 1, &[TEXTURE2D], level_cut),
        bad("font-without-default", 1, &font_readers(), no_default),
    ]
}

fn cut_pages() -> Vec<Sample> {
    let title = || bound_object(2, text("p"));
    let mut area = faulty(fixed(30, &[0; 15]));
    area.parts.push(Part::End);
    let area_cut = object(1, page(title(), area, reference(0), reference(0)));
    let no_next = page(
        title(),
        rectangle([0; 4]),
        reference(0),
        faulty(missing(36)),
    );
    vec![
        bad("page-area-cut", 1, &PAGE_READERS, area_cut),
        bad("page-without-next", 1, &PAGE_READERS, object(1, no_next)).further(),
    ]
}
