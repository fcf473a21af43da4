//! The words for a reader's name, put together from how it was made wrong.

use fuzz::names::{Due, NameFault, Wrong};

/// The words for the name of this reader, counted from 1.
pub fn name_words(reader: usize, name: &[u8], wrong: &Wrong) -> String {
    let words = match wrong.fault {
        NameFault::NotDue(due) => {
            let byte = name.get(wrong.place).copied();
            format!("{}, found {}", due_words(due, byte), found(byte))
        }
        NameFault::TooDeep => "a name of level 9 starts here, the limit is 8".to_string(),
        NameFault::UnknownReader => "no reader of this name is known".to_string(),
        NameFault::UnknownType => {
            "no type of this name is known, and no enum of it is listed".to_string()
        }
        NameFault::OtherType => "an enum has not the name of another type".to_string(),
        NameFault::NoValueType => "a nullable holds a value type other than Nullable".to_string(),
        NameFault::Count { takes: 1, has } => format!("it takes 1 argument, the name has {has}"),
        NameFault::Count { takes, has } => {
            format!("it takes {takes} arguments, the name has {has}")
        }
    };
    format!("reader {reader}: {words}")
}

/// What is due where this byte stands, or where the name ends.
fn due_words(due: Due, byte: Option<u8>) -> String {
    match (due, byte) {
        (Due::Head(_), _) => "a head is due".to_string(),
        (Due::Digit, _) => "1 or 2 is due".to_string(),
        (Due::Bracket(bracket), _) => format!("'{}' is due", char::from(bracket)),
        // An argument ends with a bracket.
        (_, None) => "']' is due".to_string(),
        (Due::BehindHead { .. }, _) => "a head has letters, digits, '.', '_' and '+'".to_string(),
        (Due::BehindBrackets { nested: true }, _) => {
            "behind the brackets ',' or ']' is due".to_string()
        }
        (Due::BehindBrackets { nested: false }, _) => {
            "behind the brackets ',' or the end is due".to_string()
        }
        (Due::InTail { .. }, _) => "a tail has bytes 20 to 7E without brackets".to_string(),
    }
}

/// The byte that stands there.
fn found(byte: Option<u8>) -> String {
    match byte {
        None => "the name's end".to_string(),
        Some(byte @ 0x20..0x7F) => format!("'{}' ({byte:02X})", char::from(byte)),
        Some(byte) => format!("{byte:02X}"),
    }
}
