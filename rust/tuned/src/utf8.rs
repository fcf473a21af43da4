//! Texts.

/// Whether the bytes are a text; short ASCII is told by overlapping words.
#[inline(always)]
pub fn is_text(bytes: &[u8]) -> bool {
    is_short_ascii(bytes) || is_long_text(bytes)
}

/// Whether the bytes are fewer than 32 and all ASCII.
#[inline(always)]
fn is_short_ascii(bytes: &[u8]) -> bool {
    const HIGH: u64 = 0x8080_8080_8080_8080;
    let word = |at: usize| match bytes[at..].first_chunk() {
        Some(word) => u64::from_le_bytes(*word),
        None => HIGH,
    };
    let all = match bytes.len() {
        n @ 16..32 => word(0) | word(8) | word(n - 16) | word(n - 8),
        n @ 8..16 => word(0) | word(n - 8),
        0..8 => bytes.iter().fold(0, |all, &byte| all | u64::from(byte)),
        _ => HIGH,
    };
    all & HIGH == 0
}

/// `is_ascii` takes blocks of many bytes; `from_utf8` takes fewer at once.
#[inline(never)]
fn is_long_text(bytes: &[u8]) -> bool {
    bytes.is_ascii() || std::str::from_utf8(bytes).is_ok()
}
