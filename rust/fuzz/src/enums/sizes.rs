//! Enums of one size under a list that says another: the refusal is known by counting bytes.

use super::{with_list, EnumCase, Listed};
use crate::broken::{Broken, Fault};
use crate::limits::alone;
use crate::random::Random;
use crate::{Case, Known, GENEROUS_WORDS};
use corpus::readers::{array_of, enum_of, list_of, nullable_of};
use corpus::values::*;
use corpus::writer::{write, Value, Written};

/// Where the enums of a file stand; it ends with the last of them.
#[derive(Clone, Copy, Debug, PartialEq, Eq)]
pub enum Place {
    Object,
    List,
    Array,
    Nullable,
}

pub const PLACES: [Place; 4] = [Place::Object, Place::List, Place::Array, Place::Nullable];

impl Place {
    fn reader(self, name: &str) -> String {
        match self {
            Place::Object => enum_of(name),
            Place::List => list_of(name),
            Place::Array => array_of(name),
            Place::Nullable => nullable_of(name),
        }
    }

    /// The raw value with its enums, of which an object and a nullable have one.
    fn raw(self, enums: Vec<Value>) -> Value {
        match self {
            Place::Object => enums[0].clone(),
            Place::Nullable => something(enums[0].clone()),
            Place::List => list(enums),
            Place::Array => array(enums),
        }
    }

    /// Whether it has just one enum.
    pub fn is_single(self) -> bool {
        matches!(self, Place::Object | Place::Nullable)
    }
}

/// A file in which so many enums have a size of their own, under a list that says another.
pub fn resized(place: Place, count: usize, held: u8, enums: &[Listed], chosen: usize) -> EnumCase {
    let Listed { name, size } = &enums[chosen];
    let values = vec![fixed(15, &vec![7; held.into()]); count];
    let file = alone(&[place.reader(name)], object(1, place.raw(values)));
    let written = write(&file);
    let end = written.bytes.len();
    let first = end - count * usize::from(held);
    let size = usize::from(*size);
    // As many enums of the listed size as fit, then the next one runs past the end, or bytes are left over.
    let whole = (end - first) / size;
    let known = if held == enums[chosen].size {
        Known::Accepted {
            rows: written.rows,
            readers: written.readers,
            shared: written.shared,
            padding: written.padding,
        }
    } else if whole < count {
        Known::Refused {
            number: 1,
            place: first + whole * size,
        }
    } else {
        Known::Refused {
            number: 20,
            place: first + count * size,
        }
    };
    let case = Case {
        bytes: written.bytes,
        words: GENEROUS_WORDS,
        known: Some(known),
    };
    with_list(case, enums)
}

/// Any such file.
pub fn some_case(random: &mut Random, enums: &[Listed]) -> Broken {
    let place = random.pick(&PLACES);
    let count = if place.is_single() {
        1
    } else {
        random.pick(&[1, 2, 3, 4, 8, 40])
    };
    let held = random.between(0, 9) as u8;
    let chosen = random.below(enums.len());
    let EnumCase { case, enums: lent } = resized(place, count, held, enums, chosen);
    let size = enums[chosen].size;
    Broken {
        case,
        enums: lent,
        before: Written::default(),
        targets: Vec::new(),
        fault: (held != size).then_some(Fault::Resized(size)),
    }
}
