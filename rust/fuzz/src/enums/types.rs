//! Containers of one enum where those of another are declared: 14, unless it is the same one.

use super::{lists, Listed};
use crate::broken::{Broken, Fault};
use crate::limits::{alone, limit};
use crate::maker::Made;
use crate::random::Random;
use crate::shape::{Shape, ARRAY, CHAR, DICTIONARY, LIST, NULLABLE};
use corpus::values::*;
use corpus::writer::{write, Value};

const BYTE: u32 = 1;
const INT64: u32 = 7;

/// A container of this type.
fn container(form: usize, element: Shape) -> Shape {
    match form {
        0 => Shape::of(LIST, element),
        1 => Shape::of(LIST, Shape::of(NULLABLE, element)),
        2 => Shape::of(LIST, Shape::of(LIST, element)),
        3 => Shape::with(DICTIONARY, vec![element, Shape::plain(BYTE)]),
        _ => Shape::with(DICTIONARY, vec![Shape::plain(CHAR), element]),
    }
}

fn empty(container: &Shape) -> Value {
    match container.kind {
        DICTIONARY => dictionary(vec![]),
        _ => list(vec![]),
    }
}

/// A file with one container inside another, of the declared enum or of something else.
pub fn some_case(random: &mut Random, enums: &[Listed]) -> Broken {
    let declared = Shape::listed(&enums[random.below(enums.len())]);
    let other = Shape::listed(&enums[random.below(enums.len())]);
    let found = match random.below(5) {
        0 => declared.clone(),
        1 => Shape::plain(BYTE),
        2 => Shape::plain(INT64),
        _ => other,
    };
    let number = if found == declared { 0 } else { 14 };
    let form = random.below(5);
    let (target, inner) = (container(form, declared), container(form, found));
    let element = faulty(bound_object(2, empty(&inner)));
    let (outer, raw) = match random.below(3) {
        0 => (Shape::of(LIST, target), list(vec![null(), element])),
        1 => (Shape::of(ARRAY, target), array(vec![element])),
        _ => (
            Shape::with(DICTIONARY, vec![Shape::plain(BYTE), target]),
            dictionary(vec![(byte(7), element)]),
        ),
    };
    let targets = vec![outer, inner];
    let readers: Vec<String> = targets.iter().map(|it| it.reader_name(random)).collect();
    let file = alone(&readers, object(1, raw));
    let (case, written) = (limit("", number, file.clone()).case, write(&file));
    let fault = (number > 0).then_some(Fault::Planted);
    let made = Made { file, targets };
    Broken {
        enums: lists::bytes_of(enums),
        ..Broken::new(case, &made, written, fault)
    }
}
