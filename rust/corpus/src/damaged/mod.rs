//! Files that must be refused, each with its number and place.

mod cut;
mod names;
mod objects;
mod start;
mod values;

use crate::sample::{in_topic, refused, Sample};
use crate::values::{file, value};
use crate::writer::{Part, Role, Value};

pub fn samples() -> Vec<Sample> {
    let topics = [
        ("cut", cut::samples()),
        ("header", start::samples()),
        ("names", names::samples()),
        ("objects", objects::samples()),
        ("values", values::samples()),
    ];
    let of_topic = |(topic, samples)| in_topic(topic, samples);
    topics.into_iter().flat_map(of_topic).collect()
}

/// A file of one object that must be refused at the place marked in it.
fn bad<N: AsRef<str>>(name: &str, number: u32, readers: &[N], primary: Value) -> Sample {
    refused(name, number, file(readers, primary, vec![]))
}

/// A value of one field, which is the expected fault.
fn faulty_field(kind: u32, role: Role, bytes: &[u8]) -> Value {
    value(kind, vec![Part::Fault, Part::Field(role, bytes.to_vec())])
}
