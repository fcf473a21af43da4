//! Values held to .NET, whose BinaryWriter wrote them and which printed them.
//!
//! `corpus/values/dotnet-values.txt` keeps what `dotnet/Values.cs` printed; `dotnet/make` writes it anew by Debian's mono.

use corpus::folder::topics;
use corpus::values::{file, fixed, object};
use corpus::writer::write;
use std::process::Command;
use xnb::{Kind, Loader, Value, Zone};

/// A value as .NET wrote it and as .NET printed it.
struct Line {
    /// The type, or for an enum the type of its numbers behind the word `Enum`.
    type_name: String,
    bytes: Vec<u8>,
    shown: String,
}

fn kept_path() -> std::path::PathBuf {
    topics().join("values/dotnet-values.txt")
}

fn kept_lines() -> Vec<Line> {
    let text = std::fs::read_to_string(kept_path()).expect("the kept values");
    let line = |line: &str| {
        let mut fields = line.split('\t').map(str::to_string);
        let mut next = || fields.next().expect("three fields");
        let (type_name, hex, shown) = (next(), next(), next());
        Line {
            type_name,
            bytes: bytes(&hex),
            shown,
        }
    };
    text.lines().map(line).collect()
}

fn bytes(hex: &str) -> Vec<u8> {
    let pairs = hex.as_bytes().chunks(2);
    let pairs = pairs.map(|pair| std::str::from_utf8(pair).expect("ASCII"));
    pairs
        .map(|it| u8::from_str_radix(it, 16).expect("two digits"))
        .collect()
}

/// A file whose primary object is this value, and the list of enum types to be lent with it.
fn file_of(line: &Line) -> (Vec<u8>, Vec<u8>) {
    let name = line.type_name.split(' ').next().expect("a name");
    let kind = Kind::all().find(|kind| kind.name() == name);
    let kind = kind.expect("a type of the documents");
    let mut reader = format!("Microsoft.Xna.Framework.Content.{kind}Reader");
    let mut enums = Vec::new();
    if kind == Kind::Enum {
        reader += "`1[[Coach.Door]]";
        enums = [b"\x0ACoach.Door", &[line.bytes.len() as u8][..]].concat();
    }
    let value = fixed(kind.number(), &line.bytes);
    (
        write(&file(&[reader], object(1, value), vec![])).bytes,
        enums,
    )
}

/// The value's characters in 16 bits each, as .NET has them.
fn units(text: &str) -> String {
    let units: Vec<String> = text
        .encode_utf16()
        .map(|unit| format!("{unit:04X}"))
        .collect();
    units.join(" ")
}

/// The value as .NET prints it.
fn reported(value: Value, type_name: &str) -> String {
    match value {
        Value::Byte(it) => it.to_string(),
        Value::SByte(it) => it.to_string(),
        Value::Int16(it) => it.to_string(),
        Value::UInt16(it) => it.to_string(),
        Value::Int32(it) => it.to_string(),
        Value::UInt32(it) => it.to_string(),
        Value::Int64(it) => it.to_string(),
        Value::UInt64(it) => it.to_string(),
        Value::Boolean(true) => "True".into(),
        Value::Boolean(false) => "False".into(),
        Value::Char(it) => units(&it.to_string()),
        Value::String(it) => units(it),
        Value::Enum(it) => match type_name {
            "Enum Byte" | "Enum UInt16" | "Enum UInt32" | "Enum UInt64" => {
                it.unsigned().to_string()
            }
            _ => it.signed().to_string(),
        },
        Value::TimeSpan(it) => {
            let (days, hours) = (it.days(), it.hours());
            format!("{it} {days} {hours} {} {}", it.minutes(), it.seconds())
        }
        Value::DateTime(it) => {
            let zone = match it.zone {
                Zone::Unspecified => "Unspecified",
                Zone::Utc => "Utc",
                Zone::Local => "Local",
            };
            format!("{it} {zone} {} {} {}", it.year(), it.month(), it.day())
        }
        Value::Decimal(it) => it.to_string(),
        other => panic!("{other:?}"),
    }
}

#[test]
fn values_are_what_dotnet_wrote_and_printed() {
    let lines = kept_lines();
    for line in &lines {
        let (file, enums) = file_of(line);
        let loader = Loader::new().with_enum_bytes(&enums);
        let table = loader.load(&file).expect("a lawful file");
        let value = table.value(0).expect("a value");
        let shown = &line.shown;
        match value {
            // .NET has other digits for the same number, and one zero of two.
            Value::Single(it) if it.is_nan() => assert_eq!(shown, "NaN"),
            Value::Double(it) if it.is_nan() => assert_eq!(shown, "NaN"),
            Value::Single(it) => assert_eq!(Ok(it), shown.parse(), "{shown}"),
            Value::Double(it) => assert_eq!(Ok(it), shown.parse(), "{shown}"),
            _ => assert_eq!(
                reported(value, &line.type_name),
                *shown,
                "{}",
                line.type_name
            ),
        }
    }
    let types =
        "Byte SByte Int16 UInt16 Int32 UInt32 Int64 UInt64 Single Double Char String TimeSpan \
        DateTime Decimal Enum";
    for name in types.split(' ') {
        let of_type = |line: &&Line| line.type_name.split(' ').next() == Some(name);
        let count = lines.iter().filter(of_type).count();
        assert!(count >= 10, "only {count} values of type {name}");
    }
}

#[test]
#[ignore = "runs Debian's mono"]
fn the_kept_values_are_what_mono_prints() {
    let out = std::env::temp_dir().join(format!("dotnet-values-{}.txt", std::process::id()));
    let make = concat!(env!("CARGO_MANIFEST_DIR"), "/tests/dotnet/make");
    let status = Command::new(make).arg(&out).status().expect("bash");
    assert!(status.success());
    let made = std::fs::read_to_string(&out).expect("what mono printed");
    std::fs::remove_file(&out).expect("it can be removed");
    let kept = std::fs::read_to_string(kept_path()).expect("the kept values");
    assert_eq!(made, kept);
}
