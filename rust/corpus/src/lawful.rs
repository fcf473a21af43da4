//! Files that must be accepted, besides those that are written out.

use crate::names::nested;
use crate::readers::{
    array_of, dictionary_of, dictionary_target, enum_of, list_of, list_target, nullable_of,
    nullable_target, BOOLEAN, BYTE, CHAR, COLOR, DATE_TIME, DECIMAL, DOUBLE, INT16, INT32, INT64,
    MATRIX, OBJECT, PAGE, POINT, QUATERNION, RECTANGLE, SBYTE, SINGLE, SPRITE_FONT, STRING,
    SYSTEM_TAIL, TEXTURE, TEXTURE2D, TIME_SPAN, UINT16, UINT32, UINT64, VECTOR2, VECTOR3, VECTOR4,
    XNA_TAIL,
};
use crate::sample::{accepted, in_topic, Sample};
use crate::values::*;
use crate::writer::{File, Value};

const XNA_RECTANGLE: &str = "Microsoft.Xna.Framework.Rectangle";
const XNA_VECTOR3: &str = "Microsoft.Xna.Framework.Vector3";
const GRAPHICS_TEXTURE: &str = "Microsoft.Xna.Framework.Graphics.Texture";
const GRAPHICS_TEXTURE2D: &str = "Microsoft.Xna.Framework.Graphics.Texture2D";
const GRAPHICS_FONT: &str = "Microsoft.Xna.Framework.Graphics.SpriteFont";

pub fn samples() -> Vec<Sample> {
    let topics = [
        ("values", texts()),
        ("arguments", containers()),
        ("textures", textures()),
        ("kinds", fonts()),
        ("kinds", pages()),
        ("branches", depths()),
        ("branches", branches()),
        ("numbers", number_forms()),
        ("names", reader_lists()),
        ("limits", limits()),
    ];
    let of_topic = |(topic, samples)| in_topic(topic, samples);
    topics.into_iter().flat_map(of_topic).collect()
}

/// File A of 01: no reader, a null primary object.
pub fn file_a() -> File {
    file::<&str>(&[], null(), vec![])
}

/// File B of 01: the text `Hi`.
pub fn file_b() -> File {
    file(&[STRING], object(1, text("Hi")), vec![])
}

/// A file of one object by the first reader.
fn alone<N: AsRef<str>>(name: &str, readers: &[N], raw: Value) -> Sample {
    accepted(name, file(readers, object(1, raw), vec![]))
}

fn texts() -> Vec<Sample> {
    let long = "0123456789".repeat(13);
    let odd = [
        text(""),
        text("\u{0}\u{FEFF}\u{FFFE}\u{FFFF}\u{10FFFF}"),
        text("größer, 大きい, 🚌"),
        text("\u{7F}\u{80}\u{7FF}\u{800}\u{D7FF}\u{E000}\u{10000}"),
    ];
    let mut elements: Vec<Value> = odd.into_iter().map(|it| bound_object(2, it)).collect();
    elements.push(null());
    let characters = "\u{0}A\u{7F}\u{80}ß\u{7FF}\u{800}\u{D7FF}\u{E000}\u{FFFF}";
    vec![
        accepted(
            "text-of-130-bytes",
            file(&[STRING], object(1, text(&long)), vec![]),
        )
        .further(),
        accepted(
            "list-of-text-with-null",
            file(
                &[list_of("System.String"), STRING.to_string()],
                object(1, list(elements)),
                vec![],
            ),
        ),
        accepted(
            "list-of-char",
            file(
                &[list_of("System.Char")],
                object(1, list(characters.chars().map(character).collect())),
                vec![],
            ),
        ),
    ]
}

fn containers() -> Vec<Sample> {
    vec![
        accepted("list-of-object", list_of_object()),
        accepted("list-of-lists", list_of_lists()),
        accepted("list-in-dictionary", list_in_dictionary()),
        accepted("dictionary-of-objects", dictionary_of_objects()),
        accepted("dictionary-in-dictionary", dictionary_in_dictionary()),
        accepted("nullables-of-every-value-type", nullables()),
        accepted("list-of-nullable", list_of_nullable()),
        accepted("arrays-in-arrays", arrays_in_arrays()),
        accepted("empty-containers", empty_containers()),
        accepted("array-of-texts-and-dictionaries", array_of_references()).further(),
    ]
}

/// One object of every kind that has no children.
fn list_of_object() -> File {
    let raw_values = vec![
        (BYTE.to_string(), byte(1)),
        (SBYTE.to_string(), sbyte(-1)),
        (INT16.to_string(), int16(-300)),
        (UINT16.to_string(), uint16(300)),
        (INT32.to_string(), int32(-70_000)),
        (UINT32.to_string(), uint32(70_000)),
        (INT64.to_string(), int64(-5_000_000_000)),
        (UINT64.to_string(), uint64(5_000_000_000)),
        (SINGLE.to_string(), single(0.5)),
        (DOUBLE.to_string(), double(0.25)),
        (BOOLEAN.to_string(), boolean(false)),
        (CHAR.to_string(), character('é')),
        (STRING.to_string(), text("stop")),
        (enum_of("Coach.Door"), enumeration(3)),
        (TIME_SPAN.to_string(), time_span(-1)),
        (DATE_TIME.to_string(), date_time(0, 0)),
        (DECIMAL.to_string(), decimal([1, 0, 0, 0x0002_0000])),
        (VECTOR2.to_string(), vector2([1.0, 2.0])),
        (VECTOR3.to_string(), vector3([1.0, 2.0, 3.0])),
        (VECTOR4.to_string(), vector4([1.0, 2.0, 3.0, 4.0])),
        (MATRIX.to_string(), matrix([0.0; 16])),
        (QUATERNION.to_string(), quaternion([0.0; 4])),
        (COLOR.to_string(), color([1, 2, 3, 4])),
        (POINT.to_string(), point([1, 2])),
        (RECTANGLE.to_string(), rectangle([1, 2, 3, 4])),
    ];
    let mut names = vec![list_of("System.Object")];
    let mut elements = vec![null()];
    for (name, raw) in raw_values {
        names.push(name);
        elements.push(object(names.len() as u32, raw));
    }
    file(&names, object(1, list(elements)), vec![])
}

fn list_of_lists() -> File {
    let names = [
        list_of(&list_target("System.UInt16")),
        list_of("System.UInt16"),
    ];
    let inner = list(vec![uint16(1), uint16(2)]);
    let elements = vec![
        bound_object(2, inner),
        null(),
        bound_object(2, list(vec![])),
    ];
    file(&names, object(1, list(elements)), vec![])
}

fn list_in_dictionary() -> File {
    let numbers = list_target("System.Int32");
    let names = [
        dictionary_of("System.String", &numbers),
        STRING.to_string(),
        list_of("System.Int32"),
    ];
    let entries = vec![
        (
            bound_object(2, text("odd")),
            bound_object(3, list(vec![int32(1), int32(3)])),
        ),
        (bound_object(2, text("none")), null()),
        (null(), bound_object(3, list(vec![]))),
    ];
    file(&names, object(1, dictionary(entries)), vec![])
}

fn dictionary_of_objects() -> File {
    let names = [
        dictionary_of("System.Object", "System.Object"),
        INT32.to_string(),
        STRING.to_string(),
        list_of("System.Object"),
    ];
    let entries = vec![
        (object(2, int32(1)), object(3, text("one"))),
        (object(2, int32(1)), object(3, text("one again"))),
        (
            object(3, text("self")),
            object(1, dictionary(vec![(null(), null())])),
        ),
        (
            object(4, list(vec![object(2, int32(2))])),
            object(4, list(vec![])),
        ),
    ];
    file(&names, object(1, dictionary(entries)), vec![])
}

fn dictionary_in_dictionary() -> File {
    let inner = dictionary_target("System.Byte", "System.String");
    let names = [
        STRING.to_string(),
        dictionary_of("System.Byte", "System.String"),
        dictionary_of("System.Char", &inner),
    ];
    let entries = vec![
        (
            character('ä'),
            bound_object(
                2,
                dictionary(vec![(byte(7), bound_object(1, text("seven")))]),
            ),
        ),
        (character('b'), null()),
    ];
    file(&names, object(3, dictionary(entries)), vec![])
}

fn nullables() -> File {
    let values = vec![
        ("System.Byte", byte(1)),
        ("System.SByte", sbyte(1)),
        ("System.Int16", int16(1)),
        ("System.UInt16", uint16(1)),
        ("System.Int32", int32(1)),
        ("System.UInt32", uint32(1)),
        ("System.Int64", int64(1)),
        ("System.UInt64", uint64(1)),
        ("System.Single", single(1.0)),
        ("System.Double", double(1.0)),
        ("System.Boolean", boolean(true)),
        ("System.Char", character('1')),
        ("System.TimeSpan", time_span(1)),
        ("System.DateTime", date_time(1, 1)),
        ("System.Decimal", decimal([1, 0, 0, 0])),
        ("Microsoft.Xna.Framework.Vector2", vector2([1.0; 2])),
        (XNA_VECTOR3, vector3([1.0; 3])),
        ("Microsoft.Xna.Framework.Vector4", vector4([1.0; 4])),
        ("Microsoft.Xna.Framework.Matrix", matrix([1.0; 16])),
        ("Microsoft.Xna.Framework.Quaternion", quaternion([1.0; 4])),
        ("Microsoft.Xna.Framework.Color", color([1; 4])),
        ("Microsoft.Xna.Framework.Point", point([1; 2])),
        (XNA_RECTANGLE, rectangle([1; 4])),
    ];
    let mut names = vec![array_of("System.Object")];
    let mut elements = Vec::new();
    for (target, raw) in values {
        names.push(nullable_of(target));
        let type_id = names.len() as u32;
        elements.push(object(type_id, something(raw)));
        elements.push(object(type_id, nothing()));
    }
    file(&names, object(1, array(elements)), vec![])
}

fn list_of_nullable() -> File {
    let spans = nullable_target("System.TimeSpan");
    let names = [
        list_of("System.Object"),
        list_of(&spans),
        dictionary_of(&spans, &nullable_target("System.Boolean")),
    ];
    let elements = vec![
        object(
            2,
            list(vec![
                something(time_span(1)),
                nothing(),
                something(time_span(2)),
            ]),
        ),
        object(
            3,
            dictionary(vec![
                (something(time_span(3)), nothing()),
                (nothing(), something(boolean(true))),
            ]),
        ),
    ];
    file(&names, object(1, list(elements)), vec![])
}

fn arrays_in_arrays() -> File {
    let names = [array_of("System.Object"), array_of("System.Single")];
    let numbers = || object(2, array(vec![single(1.0), single(2.0)]));
    let inner = object(1, array(vec![numbers(), null(), object(1, array(vec![]))]));
    file(&names, object(1, array(vec![inner, numbers()])), vec![])
}

fn empty_containers() -> File {
    let names = [
        list_of("System.Object"),
        array_of("System.String"),
        dictionary_of("System.Char", "System.Char"),
        nullable_of("System.Char"),
    ];
    let elements = vec![
        object(1, list(vec![])),
        object(2, array(vec![])),
        object(3, dictionary(vec![])),
        object(4, nothing()),
    ];
    file(&names, object(1, list(elements)), vec![])
}

fn array_of_references() -> File {
    let shelf = dictionary_target("System.String", "System.Object");
    let names = [
        list_of("System.Object"),
        array_of(&shelf),
        dictionary_of("System.String", "System.Object"),
        array_of("System.String"),
        STRING.to_string(),
    ];
    let entry = (bound_object(5, text("k")), object(5, text("v")));
    let elements = vec![
        object(
            2,
            array(vec![bound_object(3, dictionary(vec![entry])), null()]),
        ),
        object(4, array(vec![bound_object(5, text("x")), null()])),
    ];
    file(&names, object(1, list(elements)), vec![])
}

fn textures() -> Vec<Sample> {
    let every_format = (0..19).map(|format| bound_object(2, texture(format, 5, 3, 3)));
    let declared_texture = vec![bound_object(3, texture(0, 1, 1, 1)), null()];
    vec![
        accepted(
            "textures-of-every-format",
            file(
                &[list_of(GRAPHICS_TEXTURE2D), TEXTURE2D.to_string()],
                object(1, list(every_format.collect())),
                vec![],
            ),
        ),
        accepted(
            "texture-where-texture-is-declared",
            file(
                &[
                    list_of(GRAPHICS_TEXTURE),
                    TEXTURE.to_string(),
                    TEXTURE2D.to_string(),
                ],
                object(1, list(declared_texture)),
                vec![],
            ),
        ),
        accepted(
            "texture-without-smaller-levels",
            file(&[TEXTURE2D], object(1, texture(5, 9, 4, 1)), vec![]),
        )
        .further(),
        accepted(
            "texture-4096-wide",
            file(&[TEXTURE2D], object(1, texture(12, 4096, 1, 13)), vec![]),
        ),
        accepted(
            "texture-4096-high",
            file(&[TEXTURE2D], object(1, texture(4, 1, 4096, 2)), vec![]),
        )
        .further(),
    ]
}

/// The readers that a font needs; the font's own has type id 1.
pub fn font_readers() -> Vec<String> {
    vec![
        SPRITE_FONT.to_string(),
        TEXTURE2D.to_string(),
        list_of(XNA_RECTANGLE),
        list_of("System.Char"),
        list_of(XNA_VECTOR3),
    ]
}

/// The fields of a lawful font by the readers above.
pub fn font_fields(characters: &str) -> Font {
    let count = characters.chars().count();
    let boxes = || bound_object(3, list(vec![rectangle([0, 0, 1, 1]); count]));
    Font {
        texture: bound_object(2, texture(0, 1, 1, 1)),
        glyphs: boxes(),
        cropping: boxes(),
        characters: bound_object(4, list(characters.chars().map(character).collect())),
        line_spacing: int32(12),
        spacing: single(0.5),
        kerning: bound_object(5, list(vec![vector3([0.0, 1.0, 0.0]); count])),
        default_character: nothing(),
    }
}

fn fonts() -> Vec<Sample> {
    let wide = font_fields("\u{7F}\u{80}\u{7FF}\u{800}\u{FFFF}");
    let mut names = font_readers();
    names.push(list_of(GRAPHICS_FONT));
    let shelf = list(vec![bound_object(1, font(font_fields("x"))), null()]);
    vec![
        accepted(
            "font-of-no-character",
            file(&font_readers(), object(1, font(font_fields(""))), vec![]),
        ),
        accepted(
            "font-of-wide-characters",
            file(&font_readers(), object(1, font(wide)), vec![]),
        )
        .further(),
        accepted("list-of-fonts", file(&names, object(6, shelf), vec![])),
    ]
}

/// The readers that pages need: page 1, text 2, texture 3.
pub const PAGE_READERS: [&str; 3] = [PAGE, STRING, TEXTURE2D];

/// A page by the readers above.
pub fn page_to(title: &str, picture: u32, next: u32) -> Value {
    page(
        bound_object(2, text(title)),
        rectangle([0, 0, 64, 48]),
        reference(picture),
        reference(next),
    )
}

fn pages() -> Vec<Sample> {
    let untitled = page(null(), rectangle([0; 4]), reference(0), reference(0));
    let unused = vec![object(2, text("unused")), picture(), null()];
    let unused = file(&PAGE_READERS, null(), unused);
    vec![
        alone("page-without-title", &PAGE_READERS, untitled),
        accepted("shared-objects-of-other-types", unused).further(),
        list_of_pages(),
    ]
}

fn picture() -> Value {
    object(3, texture(0, 1, 1, 1))
}

fn list_of_pages() -> Sample {
    let mut readers: Vec<String> = PAGE_READERS.map(String::from).to_vec();
    readers.push(list_of("Coach.Console.Page"));
    let pages = list(vec![
        bound_object(1, page_to("a", 1, 2)),
        null(),
        bound_object(1, page_to("b", 3, 3)),
    ]);
    let shared = vec![picture(), object(1, page_to("c", 3, 3)), null()];
    let file = file(&readers, object(4, pages), shared);
    accepted("list-of-pages-with-null-resources", file)
}

/// Lists of one object around a value, so that the value has this depth; their type id is 1.
pub fn buried(depth: u32, innermost: Value) -> Value {
    let mut value = innermost;
    for _ in 1..depth {
        value = object(1, list(vec![value]));
    }
    value
}

fn depths() -> Vec<Sample> {
    let names = [
        list_of("System.Object"),
        BYTE.to_string(),
        nullable_of("System.Char"),
        TEXTURE2D.to_string(),
        PAGE.to_string(),
    ];
    let untitled = page(null(), rectangle([0; 4]), reference(0), reference(2));
    vec![
        accepted("depth-32-null", file(&names, buried(32, null()), vec![])),
        accepted(
            "depth-32-empty-list",
            file(&names, buried(32, object(1, list(vec![]))), vec![]),
        )
        .further(),
        accepted(
            "depth-32-value-of-nullable",
            file(
                &names,
                buried(31, object(3, something(character('x')))),
                vec![],
            ),
        ),
        accepted(
            "depth-32-level",
            file(&names, buried(31, object(4, texture(12, 1, 1, 1))), vec![]),
        ),
        accepted(
            "depth-32-reference",
            file(
                &names,
                buried(31, object(5, untitled)),
                vec![buried(32, object(2, byte(1))), null()],
            ),
        ),
    ]
}

/// Values with many rows below them, and others behind them.
fn branches() -> Vec<Sample> {
    vec![
        accepted("siblings-behind-each-depth", siblings_behind_each_depth()),
        accepted("lists-of-four-to-depth-7", lists_of_four()),
        accepted("large-shared-objects", large_shared_objects()),
        accepted("shared-objects-behind-a-list", shared_behind_a_list()),
    ]
}

/// The readers of lists of objects, type id 1, and of bytes, type id 2.
fn list_and_byte_readers() -> [String; 2] {
    [list_of("System.Object"), BYTE.to_string()]
}

/// Lists in lists to depth 32, with none, one or two values behind each.
fn siblings_behind_each_depth() -> File {
    let mut inner = null();
    for depth in 1..32 {
        let mut elements = vec![inner];
        elements.resize(1 + depth % 3, object(2, byte(7)));
        inner = object(1, list(elements));
    }
    file(&list_and_byte_readers(), inner, vec![])
}

/// Lists of an empty list, a value with many rows, a null and that value again.
fn lists_of_four() -> File {
    let mut inner = object(2, byte(7));
    for _ in 1..7 {
        let empty = object(1, list(vec![]));
        inner = object(1, list(vec![empty, inner.clone(), null(), inner]));
    }
    file(&list_and_byte_readers(), inner, vec![])
}

/// A page, and shared objects of many rows with nulls and empty ones between them.
fn large_shared_objects() -> File {
    let mut names = font_readers();
    names.extend([
        PAGE.to_string(),
        STRING.to_string(),
        list_of("System.Object"),
        array_of(&nullable_target("System.Int32")),
        dictionary_of("System.String", &list_target("System.Byte")),
        list_of("System.Byte"),
        nullable_of("System.Char"),
    ]);
    let a_page = |picture, next| {
        page(
            bound_object(7, text("stop")),
            rectangle([0, 0, 8, 8]),
            reference(picture),
            reference(next),
        )
    };
    let nullables = (0..60).map(|number| match number % 3 {
        0 => nothing(),
        _ => something(int32(number)),
    });
    let entries = (0..20).map(|number| {
        let bytes = (0..number).map(byte).collect();
        let key = bound_object(7, text(&number.to_string()));
        (key, bound_object(11, list(bytes)))
    });
    let shelf = vec![
        object(1, font(font_fields("abc"))),
        null(),
        object(8, list(vec![object(12, something(character('x')))])),
    ];
    let shared = vec![
        object(1, font(font_fields("0123456789"))),
        object(2, texture(0, 8, 8, 4)),
        object(6, a_page(2, 6)),
        null(),
        object(8, list(vec![])),
        object(6, a_page(0, 3)),
        object(9, array(nullables.collect())),
        object(10, dictionary(entries.collect())),
        object(12, nothing()),
        object(8, list(shelf)),
    ];
    file(&names, object(6, a_page(2, 3)), shared)
}

/// A primary object of many rows, and shared objects without children behind it.
fn shared_behind_a_list() -> File {
    let names = [list_of("System.Byte"), BYTE.to_string()];
    let bytes = list(vec![byte(1); 900]);
    let shared = vec![object(2, byte(1)), null(), object(2, byte(2))];
    file(&names, object(1, bytes), shared)
}

fn number_forms() -> Vec<Sample> {
    let mut samples = vec![accepted("every-number-in-1-byte", padded_file(1))];
    for width in [2, 3, 4, 5] {
        let name = format!("every-number-in-{width}-bytes");
        samples.push(accepted(&name, padded_file(width)));
    }
    let mut two_byte_count = file_b();
    two_byte_count.objects = vec![object(1, padded(2, text("Hi")))];
    samples.push(accepted("text-count-in-2-bytes", two_byte_count));
    samples
}

/// Pages, a font and lists with every seven-bit number in so many bytes.
fn padded_file(width: usize) -> File {
    let mut names = font_readers();
    names.push(PAGE.to_string());
    names.push(STRING.to_string());
    names.push(list_of("System.Object"));
    let a_page = |next| {
        page(
            bound_object(7, text("padded")),
            rectangle([1, 2, 3, 4]),
            reference(2),
            reference(next),
        )
    };
    let elements = vec![
        object(1, font(font_fields("ab"))),
        object(6, a_page(1)),
        null(),
    ];
    let shared = vec![object(6, a_page(1)), object(2, texture(12, 1, 1, 1))];
    let mut file = file(&names, object(8, list(elements)), shared);
    pad_file(width, &mut file);
    file
}

/// Writes every seven-bit number of a file in so many bytes.
pub fn pad_file(width: usize, file: &mut File) {
    file.each_seven(&mut |_, seven| seven.width = width);
}

fn reader_lists() -> Vec<Sample> {
    let unused = [OBJECT, TEXTURE, BYTE, BYTE];
    let unused = file(&unused, object(4, byte(9)), vec![]);
    let longest = format!("{BYTE},{}", "~".repeat(1023 - BYTE.len()));
    vec![
        accepted("tails-are-ignored", tails()),
        accepted("readers-never-invoked-but-listed", unused),
        alone("name-of-8-levels", &[nested(8)], list(vec![])),
        alone("name-of-1024-bytes", &[longest], byte(1)),
    ]
}

/// Readers of equal targets with different tails, where those targets are declared.
fn tails() -> File {
    let list_reader = "Microsoft.Xna.Framework.Content.ListReader";
    let readers = [
        format!("{STRING}{XNA_TAIL}"),
        format!("{list_reader}`1[[System.String{SYSTEM_TAIL}]]{XNA_TAIL}"),
        list_of(&list_target(&format!("System.String{SYSTEM_TAIL}"))),
        STRING.to_string(),
        format!("{},", list_of("System.String,")),
    ];
    let texts = list(vec![
        bound_object(1, text("one reader")),
        bound_object(4, text("another of the same target")),
    ]);
    let lists = vec![bound_object(2, texts.clone()), bound_object(5, texts)];
    file(&readers, object(3, list(lists)), vec![])
}

fn limits() -> Vec<Sample> {
    let mut readers = vec![PAGE; 63];
    readers.push(BYTE);
    let bytes_list = list_of("System.Byte");
    // In file B the text count stands at 62; here it takes three bytes.
    let long_text = text(&"x".repeat(32_768 - 65));
    vec![
        accepted("64-readers", file(&readers, object(64, byte(64)), vec![])),
        accepted(
            "256-shared-objects",
            file::<&str>(&[], null(), vec![null(); 256]),
        ),
        accepted(
            "1024-rows",
            file(&[bytes_list], object(1, list(vec![byte(0); 1023])), vec![]),
        ),
        accepted(
            "32768-bytes",
            exactly(32_768, file(&[STRING], object(1, long_text), vec![])),
        ),
    ]
}

/// The same file, after its length was checked.
fn exactly(length: usize, file: File) -> File {
    assert_eq!(crate::writer::write(&file).bytes.len(), length);
    file
}
