//! Long lists of nullables, lawful and with a fault at any of them.

use crate::enums::EnumCase;
use crate::random::Random;
use crate::Case;
use corpus::enums::entry;
use corpus::readers::{array_of, list_of, nullable_target};
use corpus::values::{file, null};
use corpus::writer::{set_length, write, WORDS_PER_ROW};

/// Types that a nullable may hold, and the bytes of their values; `Coach.Door` is an enum of two bytes.
const TYPES: [(&str, &[&[u8]]); 14] = [
    ("System.Byte", &[&[0], &[1], &[0xFF]]),
    ("System.Int16", &[&[0, 1], &[1, 0]]),
    ("System.Int32", &[&[0, 1, 2, 3], &[1, 1, 1, 1]]),
    ("System.Double", &[&[0; 8], &[1; 8]]),
    ("System.Boolean", &[&[0], &[1]]),
    ("System.Char", &[&[0], &[1], b"x", &[0x7F]]),
    (
        "System.Char",
        &[b"x", "é".as_bytes(), "€".as_bytes(), "😀".as_bytes()],
    ),
    ("System.TimeSpan", &[&[0; 8], &[1; 8]]),
    ("System.DateTime", &[&[0; 8], &[1, 0, 0, 0, 0, 0, 0, 0x40]]),
    (
        "System.Decimal",
        &[&[0; 16], &[1, 0, 0, 0, 0, 0, 0, 0, 0, 0, 0, 0, 0, 0, 2, 0]],
    ),
    ("Microsoft.Xna.Framework.Vector3", &[&[0; 12], &[1; 12]]),
    ("Microsoft.Xna.Framework.Matrix", &[&[0; 64], &[1; 64]]),
    ("Microsoft.Xna.Framework.Color", &[&[0; 4], &[1; 4]]),
    ("Coach.Door", &[&[0, 0], &[1, 0]]),
];

/// Bytes of values that break a rule: no Boolean, no character, no time, no decimal.
const WRONG: [&[u8]; 4] = [&[2], &[0xC3], &[0xFF; 8], &[0xFF; 16]];

/// What is wrong with the list.
enum Fault {
    None,
    /// The first byte of a nullable is neither 0 nor 1.
    Flag,
    /// The bytes of a value are others.
    Value,
    /// The file ends inside a nullable, or before it.
    Cut,
    /// The list says that it has one more.
    Count,
    /// A byte stands behind the list.
    Rest,
}

fn some_fault(random: &mut Random) -> Fault {
    match random.below(12) {
        0 => Fault::Flag,
        1 => Fault::Value,
        2 => Fault::Cut,
        3 => Fault::Count,
        4 => Fault::Rest,
        _ => Fault::None,
    }
}

/// The nullables of a list, and where each stands.
fn nullables(random: &mut Random, values: &[&[u8]]) -> (Vec<u8>, Vec<usize>) {
    let (count, nulls) = (random.below(130), random.pick(&[0, 10, 50, 100]));
    let (mut bytes, mut places) = (vec![], vec![]);
    for _ in 0..count {
        places.push(bytes.len());
        if random.chance(nulls) {
            bytes.push(0);
        } else {
            bytes.push(1);
            bytes.extend(random.pick(values));
        }
    }
    (bytes, places)
}

/// The case of a seed: a list or an array of nullables below so many lists of objects, with a fault at one of them, or with none.
pub fn case(seed: u64) -> EnumCase {
    let random = &mut Random::new(seed);
    let (name, values) = random.pick(&TYPES);
    let target = nullable_target(name);
    let list = if random.chance(50) {
        list_of(&target)
    } else {
        array_of(&target)
    };
    let mut bytes = write(&file(&[list, list_of("System.Object")], null(), vec![])).bytes;
    bytes.pop();
    let above = random.pick(&[0, 0, 1, 2, 28, 29, 30, 31]);
    for _ in 0..above {
        bytes.extend([2, 1, 0, 0, 0]);
    }
    let (mut elements, places) = nullables(random, values);
    let mut count = places.len() as u32;
    let fault = some_fault(random);
    if let (Fault::Flag | Fault::Value | Fault::Cut, false) = (&fault, places.is_empty()) {
        let at = random.pick(&places);
        match fault {
            Fault::Flag => elements[at] = random.between(2, 255) as u8,
            Fault::Value => {
                let wrong = random.pick(&WRONG);
                let end = elements.len().min(at + 1 + wrong.len());
                elements[at] = 1;
                elements.splice(at + 1..end, wrong.iter().copied());
            }
            _ => elements.truncate(at + random.below(3)),
        }
    }
    match fault {
        Fault::Count => count += 1,
        Fault::Rest => elements.push(random.pick(&[0, 1, 2])),
        _ => {}
    }
    bytes.push(1);
    bytes.extend(count.to_le_bytes());
    bytes.extend(elements);
    set_length(&mut bytes, 0);
    let rows = if random.chance(60) {
        300
    } else {
        random.below(300)
    };
    EnumCase {
        case: Case {
            bytes,
            words: WORDS_PER_ROW * rows,
            known: None,
        },
        enums: entry(b"Coach.Door", 2),
    }
}
