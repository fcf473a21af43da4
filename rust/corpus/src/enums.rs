//! Lent lists of enum types, and samples that are loaded with one: Req 02 of document 02.

use crate::lawful::file_a;
use crate::literal;
use crate::readers::{
    array_of, dictionary_of, dictionary_target, list_of, list_target, nullable_of, nullable_target,
};
use crate::sample::{accepted, in_topic, refused_bytes, Sample};
use crate::values::*;
use crate::writer::{write, Value};

/// The sizes that an enum may have.
pub const SIZES: [u8; 4] = [1, 2, 4, 8];

/// 01's target names and those of Req 05, which no enum may have.
pub const TARGET_NAMES: &[&str] = &[
    "System.Byte",
    "System.SByte",
    "System.Int16",
    "System.UInt16",
    "System.Int32",
    "System.UInt32",
    "System.Int64",
    "System.UInt64",
    "System.Single",
    "System.Double",
    "System.Boolean",
    "System.Char",
    "System.String",
    "System.Object",
    "System.Nullable",
    "System.Collections.Generic.List",
    "System.Collections.Generic.Dictionary",
    "System.TimeSpan",
    "System.DateTime",
    "System.Decimal",
    "Microsoft.Xna.Framework.Vector2",
    "Microsoft.Xna.Framework.Vector3",
    "Microsoft.Xna.Framework.Vector4",
    "Microsoft.Xna.Framework.Matrix",
    "Microsoft.Xna.Framework.Quaternion",
    "Microsoft.Xna.Framework.Color",
    "Microsoft.Xna.Framework.Point",
    "Microsoft.Xna.Framework.Rectangle",
    "Microsoft.Xna.Framework.Graphics.Texture",
    "Microsoft.Xna.Framework.Graphics.Texture2D",
    "Microsoft.Xna.Framework.Graphics.SpriteFont",
    "Coach.Console.Page",
    "Microsoft.Xna.Framework.Graphics.IndexBuffer",
    "Microsoft.Xna.Framework.Graphics.VertexDeclaration",
    "Microsoft.Xna.Framework.Graphics.VertexBuffer",
    "Microsoft.Xna.Framework.Graphics.Model",
];

/// The bytes of an entry: a name length byte, the name, a size byte.
pub fn entry(name: &[u8], size: u8) -> Vec<u8> {
    let length = u8::try_from(name.len()).expect("a name of at most 255 bytes");
    [&[length], name, &[size]].concat()
}

/// The bytes of a list of names with their sizes.
pub fn list_bytes(entries: &[(&str, u8)]) -> Vec<u8> {
    let bytes = entries
        .iter()
        .flat_map(|(name, size)| entry(name.as_bytes(), *size));
    bytes.collect()
}

/// A raw enum of so many bytes.
pub fn enum_of_size(size: u8) -> Value {
    let bytes: Vec<u8> = (0xA1..0xA1 + size).collect();
    fixed(15, &bytes)
}

/// Every sample that is loaded with a list.
pub fn samples() -> Vec<Sample> {
    let mut samples: Vec<Sample> = SIZES.into_iter().flat_map(in_each_place).collect();
    samples.extend(TARGET_NAMES.iter().map(|name| target_name(name)));
    samples.push(longest_name());
    let typed = literal::samples_of("enums", include_str!("../literal/enums.txt"));
    typed
        .into_iter()
        .chain(in_topic("enums", samples))
        .collect()
}

const DOOR: &str = "Coach.Door";

/// An enum of a size in each place where a type of Req 02 may stand, besides those that are written out.
fn in_each_place(size: u8) -> Vec<Sample> {
    let door = || enum_of_size(size);
    let doors = || bound_object(2, list(vec![door()]));
    let files = [
        (
            "array",
            vec![array_of(DOOR)],
            array(vec![door(), door(), door()]),
        ),
        ("nullable", vec![nullable_of(DOOR)], something(door())),
        (
            "key",
            vec![dictionary_of(DOOR, "System.Byte")],
            dictionary(vec![(door(), byte(7))]),
        ),
        (
            "value",
            vec![dictionary_of("System.Byte", DOOR)],
            dictionary(vec![(byte(7), door())]),
        ),
        (
            "list-in-list",
            vec![list_of(&list_target(DOOR)), list_of(DOOR)],
            list(vec![doors(), null(), doors()]),
        ),
        (
            "nullable-in-array",
            vec![array_of(&nullable_target(DOOR))],
            array(vec![something(door()), nothing()]),
        ),
        (
            "dictionary-in-list",
            vec![
                list_of(&dictionary_target(DOOR, DOOR)),
                dictionary_of(DOOR, DOOR),
            ],
            list(vec![bound_object(2, dictionary(vec![(door(), door())]))]),
        ),
    ];
    let sample = |(place, readers, raw): (&str, Vec<String>, Value)| {
        let name = format!("enums-{place}-with-{size}");
        let file = file(&readers, object(1, raw), vec![]);
        accepted(&name, file).lending(list_bytes(&[(DOOR, size)]))
    };
    files.into_iter().map(sample).collect()
}

/// 32: an entry with a target name, behind a lawful one.
fn target_name(name: &str) -> Sample {
    let list = list_bytes(&[(DOOR, 1), (name, 1)]);
    let shown = name.to_lowercase().replace('.', "-");
    let file = write(&file_a()).bytes;
    refused_bytes(&format!("enums-named-{shown}"), 32, 1, file).lending(list)
}

/// A name of 255 bytes, the most that its length byte can say.
fn longest_name() -> Sample {
    let name = "x".repeat(255);
    let file = file(
        &[list_of(&name)],
        object(1, list(vec![enum_of_size(2)])),
        vec![],
    );
    accepted("enums-name-of-255-bytes", file).lending(list_bytes(&[(&name, 2)]))
}
