//! Text by RFC 3629, as the standard library judges it.

/// How many bytes a character of 1 to 3 bytes has, by its lead byte.
pub fn character_size(lead: u8) -> Option<usize> {
    match lead {
        0x00..=0x7F => Some(1),
        0xC2..=0xDF => Some(2),
        0xE0..=0xEF => Some(3),
        _ => None,
    }
}

pub fn is_text(bytes: &[u8]) -> bool {
    std::str::from_utf8(bytes).is_ok()
}

/// The code point of the first character.
pub fn first_character(bytes: &[u8]) -> Option<char> {
    std::str::from_utf8(bytes).ok()?.chars().next()
}
