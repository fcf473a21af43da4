//! Values as text and as JSON.

use crate::names::shown_text;
use serde::Serialize;
use std::fmt::{self, Debug, Display, Formatter};
use xnb::{Table, Time};

/// What is shown behind the kind of a row.
#[derive(Clone, Debug, PartialEq, Serialize)]
#[serde(untagged)]
pub enum Value {
    Nothing,
    Text(String),
    Char(char),
    Boolean(bool),
    Signed(i64),
    Unsigned(u64),
    /// Numbers of 64 bits, which JSON has as texts: a program may hold fewer bits of a number.
    Long(#[serde(serialize_with = "as_text")] i64),
    UnsignedLong(#[serde(serialize_with = "as_text")] u64),
    Integers(Vec<i32>),
    Bytes(Vec<u8>),
    Single(Float<f32>),
    Singles(Vec<Float<f32>>),
    Double(Float<f64>),
    /// A decimal number with all its digits.
    Decimal(String),
    Time {
        seconds: i64,
        #[serde(serialize_with = "as_text")]
        ticks: u32,
    },
    DateTime {
        #[serde(serialize_with = "as_text")]
        ticks: u64,
        zone: u64,
    },
    /// A nullable without a value.
    Absent {
        present: bool,
    },
    Count {
        count: usize,
    },
    Image {
        width: u64,
        height: u64,
        format: u64,
    },
    /// An image level, or data without a form of its own.
    Data {
        bytes: usize,
    },
    /// The bone that a reference names, counted from 1, or none.
    Bone {
        bone: Option<u64>,
    },
    /// The shared object that a reference names, or none.
    Resource {
        shared: Option<u32>,
    },
}

/// A number that JSON may lack: one that is not finite is given by its name.
#[derive(Clone, Copy, Debug, PartialEq)]
pub struct Float<F>(F);

impl<F: Copy + Serialize + Debug + Into<f64>> Serialize for Float<F> {
    fn serialize<S: serde::Serializer>(&self, out: S) -> Result<S::Ok, S::Error> {
        if self.0.into().is_finite() {
            self.0.serialize(out)
        } else {
            out.serialize_str(&format!("{:?}", self.0))
        }
    }
}

impl<F: Debug> Display for Float<F> {
    fn fmt(&self, out: &mut Formatter) -> fmt::Result {
        write!(out, "{:?}", self.0)
    }
}

/// The value of a row of its table.
pub fn value(table: &Table, number: u32) -> Value {
    let value = table.value(number).expect("a loaded row has a value");
    Value::from(value)
}

impl From<xnb::Value<'_>> for Value {
    fn from(value: xnb::Value) -> Value {
        use xnb::Value::*;
        let singles =
            |numbers: &[f32]| Value::Singles(numbers.iter().copied().map(Float).collect());
        match value {
            String(text) => Value::Text(text.to_string()),
            Char(character) => Value::Char(character),
            Boolean(truth) => Value::Boolean(truth),
            SByte(number) => Value::Signed(number.into()),
            Int16(number) => Value::Signed(number.into()),
            Int32(number) => Value::Signed(number.into()),
            Int64(number) => Value::Long(number),
            Enum(number) if number.size() == 8 => Value::Long(number.usual()),
            Enum(number) => Value::Signed(number.usual()),
            Byte(number) => Value::Unsigned(number.into()),
            UInt16(number) => Value::Unsigned(number.into()),
            UInt32(number) => Value::Unsigned(number.into()),
            UInt64(number) => Value::UnsignedLong(number),
            Single(number) => Value::Single(Float(number)),
            Double(number) => Value::Double(Float(number)),
            Vector2(numbers) => singles(&numbers),
            Vector3(numbers) => singles(&numbers),
            Vector4(numbers) => singles(&numbers),
            Matrix(numbers) => singles(&numbers),
            Quaternion(numbers) => singles(&numbers),
            Color(channels) => Value::Bytes(channels.to_vec()),
            Point(point) => Value::Integers(vec![point.x, point.y]),
            Rectangle(it) => Value::Integers(vec![it.x, it.y, it.width, it.height]),
            Decimal(number) => Value::Decimal(number.to_string()),
            TimeSpan(span) => {
                let Time { seconds, ticks } = span.time();
                Value::Time { seconds, ticks }
            }
            DateTime(moment) => Value::DateTime {
                ticks: moment.ticks,
                zone: moment.zone as u64,
            },
            Nullable(None) => Value::Absent { present: false },
            Array(count) | List(count) | Dictionary(count) => Value::Count { count },
            Texture2D(texture) => Value::Image {
                width: texture.width.into(),
                height: texture.height.into(),
                format: texture.format.code().into(),
            },
            ImageLevel(data) | DataBytes(data) => Value::Data { bytes: data.len() },
            BoneReference(bone) => Value::Bone {
                bone: bone.map(u64::from),
            },
            SharedReference(shared) => Value::Resource { shared },
            // Their fields are below them.
            _ => Value::Nothing,
        }
    }
}

impl Value {
    pub fn is_nothing(&self) -> bool {
        *self == Value::Nothing
    }
}

/// Nothing for some kinds.
impl Display for Value {
    fn fmt(&self, out: &mut Formatter) -> fmt::Result {
        use Value::*;
        match self {
            Nothing => Ok(()),
            Text(text) => write!(out, "\"{}\"", shown_text(text, '"')),
            Char(character) => write!(out, "'{}'", shown_text(&character.to_string(), '\'')),
            Boolean(value) => write!(out, "{value}"),
            Signed(number) | Long(number) => write!(out, "{number}"),
            Unsigned(number) | UnsignedLong(number) => write!(out, "{number}"),
            Integers(numbers) => write!(out, "{}", spaced(numbers)),
            Bytes(numbers) => write!(out, "{}", spaced(numbers)),
            Single(number) => write!(out, "{number}"),
            Singles(numbers) => write!(out, "{}", spaced(numbers)),
            Double(number) => write!(out, "{number}"),
            Decimal(digits) => write!(out, "{digits}"),
            Time { seconds, ticks } => write!(out, "{seconds} s and {ticks} ticks"),
            DateTime { ticks, zone } => write!(out, "{ticks} ticks, zone {zone}"),
            Absent { .. } => write!(out, "nothing"),
            Count { count } => write!(out, "of {count}"),
            Image {
                width,
                height,
                format,
            } => write!(out, "{width} by {height}, format {format}"),
            Data { bytes } => write!(out, "of {bytes} bytes"),
            Bone { bone: Some(bone) } => write!(out, "to bone {bone}"),
            Bone { bone: None } => write!(out, "to nothing"),
            Resource { shared: Some(id) } => write!(out, "to shared {id}"),
            Resource { shared: None } => write!(out, "to nothing"),
        }
    }
}

fn as_text<S: serde::Serializer>(number: &impl Display, out: S) -> Result<S::Ok, S::Error> {
    out.serialize_str(&number.to_string())
}

fn spaced(numbers: &[impl Display]) -> String {
    let numbers: Vec<String> = numbers.iter().map(|it| it.to_string()).collect();
    numbers.join(" ")
}
