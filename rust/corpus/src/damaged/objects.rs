//! 13, 14 and 16 to 20: type ids, references, depth, rows and what is left over.

use super::bad;
use crate::lawful::{buried, file_a, font_fields, font_readers, page_to, PAGE_READERS};
use crate::readers::{
    array_of, list_of, list_target, nullable_of, BYTE, INT32, OBJECT, PAGE, SPRITE_FONT, TEXTURE,
    TEXTURE2D,
};
use crate::sample::{refused, refused_bytes, Sample};
use crate::values::*;
use crate::writer::{write, File, Value};

pub fn samples() -> Vec<Sample> {
    let mut samples = missing_readers();
    samples.extend(readers_never_invoked());
    samples.extend(undeclared_types());
    samples.extend(missing_resources());
    samples.extend(wrong_resources());
    samples.extend(too_deep());
    samples.extend(too_many_rows());
    samples.extend(left_over());
    samples
}

/// 13: past the list.
fn missing_readers() -> Vec<Sample> {
    let of_id = |id| faulty(object(id, byte(1)));
    let in_shared_object = file(&[BYTE], object(1, byte(1)), vec![of_id(2)]);
    vec![
        bad::<&str>("past-an-empty-list", 13, &[], of_id(1)).further(),
        bad("past-the-list", 13, &[BYTE], of_id(2)),
        bad("largest-id", 13, &[BYTE], of_id(u32::MAX)).further(),
        refused("past-the-list-in-shared-object", 13, in_shared_object).further(),
    ]
}

/// A list of a null and one more object.
fn behind_null(element: Value) -> Value {
    object(1, list(vec![null(), element]))
}

/// An object whose type id is the expected fault.
fn wrong(type_id: u32) -> Value {
    faulty(bound_object(type_id, list(vec![])))
}

/// 13, even where another type is declared.
fn readers_never_invoked() -> Vec<Sample> {
    let texts = [list_of("System.String"), OBJECT.to_string()];
    let textures = list_of("Microsoft.Xna.Framework.Graphics.Texture");
    let textures = [textures, TEXTURE.to_string()];
    let where_text = behind_null(wrong(2));
    vec![
        bad("object-reader", 13, &[OBJECT], wrong(1)),
        bad(
            "object-reader-where-text-is-declared",
            13,
            &texts,
            where_text,
        ),
        bad("texture-reader", 13, &textures, behind_null(wrong(2))),
    ]
}

/// 14.
fn undeclared_types() -> Vec<Sample> {
    let texts = [list_of("System.String"), INT32.to_string()];
    let lists = list_of(&list_target("System.Int32"));
    let other_list = [lists.clone(), list_of("System.UInt32")];
    let some_array = [lists, array_of("System.Int32")];
    let textures = list_of("Microsoft.Xna.Framework.Graphics.Texture");
    let some_font = [textures, SPRITE_FONT.to_string()];
    let second = || behind_null(wrong(2));
    let title = object(1, page(wrong(1), null(), null(), null()));
    let mut fields = font_fields("a");
    fields.glyphs = wrong(4);
    let glyphs = object(1, font(fields));
    vec![
        bad("number-where-text-is-declared", 14, &texts, second()),
        bad("list-of-other-numbers", 14, &other_list, second()),
        bad("array-where-list-is-declared", 14, &some_array, second()),
        bad("font-where-texture-is-declared", 14, &some_font, second()),
        bad("page-as-title", 14, &[PAGE], title).further(),
        bad("characters-as-glyphs", 14, &font_readers(), glyphs).further(),
    ]
}

/// A page as an object, by the readers of pages.
fn page_with(picture: Value, next: Value) -> Value {
    object(1, page(null(), rectangle([0; 4]), picture, next))
}

fn pages(primary: Value, shared: Vec<Value>) -> File {
    file(&PAGE_READERS, primary, shared)
}

/// 16.
fn missing_resources() -> Vec<Sample> {
    let first = page_with(faulty(reference(1)), reference(0));
    let second = page_with(reference(1), faulty(reference(2)));
    let largest = page_with(reference(0), faulty(reference(u32::MAX)));
    vec![
        refused("no-shared-object", 16, pages(first, vec![])),
        refused("above-the-count", 16, pages(second, vec![null()])),
        refused("largest-id", 16, pages(largest, vec![null()])).further(),
    ]
}

/// 17, which comes last of all and in row order.
fn wrong_resources() -> Vec<Sample> {
    let a_page = || object(1, page_to("x", 0, 0));
    let a_text = || object(2, text("x"));
    let a_picture = || object(3, texture(0, 1, 1, 1));
    let page_as_picture = page_with(faulty(reference(1)), reference(1));
    let picture_as_page = page_with(reference(1), faulty(reference(1)));
    let ring = page_with(reference(2), reference(1));
    let shared = vec![
        page_with(reference(2), faulty(reference(3))),
        a_picture(),
        a_text(),
        page_with(reference(1), reference(1)),
    ];
    let mut left_over = pages(page_with(reference(1), reference(0)), vec![a_text()]);
    let end = write(&left_over).bytes.len();
    left_over.rest = vec![1, 2];
    vec![
        refused(
            "page-as-picture",
            17,
            pages(page_as_picture, vec![a_page()]),
        ),
        refused(
            "picture-as-page",
            17,
            pages(picture_as_page, vec![a_picture()]),
        ),
        refused("text-as-page-in-shared-object", 17, pages(ring, shared)),
        refused_bytes("before-wrong-resource", 20, end, write(&left_over).bytes),
    ]
}

/// 18.
fn too_deep() -> Vec<Sample> {
    let names = [
        list_of("System.Object"),
        nullable_of("System.Char"),
        TEXTURE2D.to_string(),
        PAGE.to_string(),
        list_of("System.Byte"),
    ];
    let inside = something(faulty(character('x')));
    let level = texture_of(0, 2, 2, vec![faulty(image_level(1))]);
    let title = page(faulty(null()), null(), null(), null());
    let no_byte_left = counted(18, 9, vec![faulty(value(1, vec![]))]);
    let deepest = |type_id, raw| buried(32, object(type_id, raw));
    let shared = vec![null(), buried(33, wrong(9))];
    vec![
        bad("null", 18, &names, buried(33, faulty(null()))),
        bad("value-of-nullable", 18, &names, deepest(2, inside)),
        bad("level", 18, &names, deepest(3, level)),
        bad("title", 18, &names, deepest(4, title)).further(),
        bad(
            "where-no-byte-is-left",
            18,
            &names,
            deepest(5, no_byte_left),
        ),
        refused("in-shared-object", 18, file(&names, null(), shared)).further(),
    ]
}

/// 19, with room for 1,024 rows.
fn too_many_rows() -> Vec<Sample> {
    let behind_1024_rows = |count, one: Value, last: Value| {
        let mut elements = vec![one; 1023];
        elements.push(faulty(last));
        object(1, counted(18, count, elements))
    };
    let bytes = [list_of("System.Byte")];
    let booleans = [list_of("System.Boolean")];
    let one_more = behind_1024_rows(1024, byte(0), byte(1));
    let one_bad = behind_1024_rows(1024, boolean(true), fixed(11, &[2]));
    let no_byte = behind_1024_rows(u32::MAX, byte(0), value(1, vec![]));
    vec![
        bad("1025-rows", 19, &bytes, one_more),
        bad("before-a-bad-value", 19, &booleans, one_bad).further(),
        bad("where-no-byte-is-left", 19, &bytes, no_byte),
    ]
}

/// 20.
fn left_over() -> Vec<Sample> {
    let mut one_byte = file_a();
    one_byte.rest = vec![0];
    let mut behind_shared = file(&[BYTE], object(1, byte(1)), vec![null()]);
    let end = write(&behind_shared).bytes.len();
    behind_shared.rest = b"more".to_vec();
    let behind_shared = write(&behind_shared).bytes;
    vec![
        refused_bytes("one-byte", 20, 13, write(&one_byte).bytes),
        refused_bytes("behind-shared-objects", 20, end, behind_shared),
    ]
}
