//! Image levels of a texture.

pub const LAST_FORMAT: u32 = 18;
pub const LONGEST_SIDE: u32 = 4096;

/// How many levels a texture has at most: the number of binary digits of its larger side.
pub fn longest_chain(width: u32, height: u32) -> u32 {
    let mut side = width.max(height);
    let mut digits = 0;
    while side > 0 {
        side /= 2;
        digits += 1;
    }
    digits
}

/// The number of bytes in one level of a format, or nothing for an unknown format.
pub fn level_size(format: u32, width: u32, height: u32, level: u32) -> Option<u32> {
    let width = level_side(width, level);
    let height = level_side(height, level);
    if let Some(bytes) = block_bytes(format) {
        return Some(width.div_ceil(4) * height.div_ceil(4) * bytes);
    }
    Some(width * height * pixel_bytes(format)?)
}

/// A side halved once for each level, rounded down, but at least 1.
fn level_side(side: u32, level: u32) -> u32 {
    let mut side = side;
    for _ in 0..level {
        side /= 2;
    }
    side.max(1)
}

fn block_bytes(format: u32) -> Option<u32> {
    match format {
        4 => Some(8),
        5 | 6 => Some(16),
        _ => None,
    }
}

fn pixel_bytes(format: u32) -> Option<u32> {
    match format {
        12 => Some(1),
        1 | 2 | 3 | 7 | 16 => Some(2),
        0 | 8 | 9 | 10 | 13 | 17 => Some(4),
        11 | 14 | 18 => Some(8),
        15 => Some(16),
        _ => None,
    }
}
