//! Numbers in the bytes of a value, little endian.

/// A number in as many bytes as it has.
pub trait Number: Copy {
    /// The number in these bytes, which must be as many as it has.
    fn of_bytes(bytes: &[u8]) -> Self;
}

macro_rules! numbers {
    ($($number:ty)*) => {$(
        impl Number for $number {
            fn of_bytes(bytes: &[u8]) -> Self {
                let bytes = bytes.try_into();
                <$number>::from_le_bytes(bytes.expect("a load takes numbers of their size"))
            }
        }
    )*};
}

numbers! { u8 i8 u16 i16 u32 i32 u64 i64 f32 f64 }

/// The numbers of which the bytes consist, all of one size.
pub fn numbers<N: Number, const COUNT: usize>(bytes: &[u8]) -> [N; COUNT] {
    let size = size_of::<N>();
    assert_eq!(
        bytes.len(),
        COUNT * size,
        "a load takes values of their size"
    );
    std::array::from_fn(|index| N::of_bytes(&bytes[index * size..][..size]))
}

/// The whole number in at most eight bytes.
pub fn unsigned(bytes: &[u8]) -> u64 {
    let add = |number, byte: &u8| number << 8 | u64::from(*byte);
    bytes.iter().rev().fold(0, add)
}

/// The number of bytes of the seven-bit number at the start of the bytes.
pub fn seven_length(bytes: &[u8]) -> usize {
    let goes_on = bytes.iter().take_while(|byte| **byte >= 0x80);
    goes_on.count() + 1
}

/// The number of bytes of a seven-bit number in its shortest form.
pub fn shortest_length(number: usize) -> usize {
    let bits = usize::BITS - number.leading_zeros();
    bits.div_ceil(7).max(1) as usize
}

/// The seven-bit number at the start of the bytes, and the bytes behind it.
pub fn seven(bytes: &[u8]) -> (u32, &[u8]) {
    let (number, behind) = bytes.split_at(seven_length(bytes));
    let add = |sum, byte: &u8| sum << 7 | u32::from(*byte & 0x7F);
    (number.iter().rev().fold(0, add), behind)
}

#[cfg(test)]
mod tests {
    use super::*;

    #[test]
    fn numbers_are_little_endian() {
        assert_eq!(numbers::<u16, 2>(&[1, 2, 3, 4]), [0x0201, 0x0403]);
        assert_eq!(numbers::<i8, 1>(&[0xFF]), [-1]);
        assert_eq!(numbers::<f32, 1>(&[0, 0, 0x80, 0x3F]), [1.0]);
        assert_eq!(unsigned(&[1, 2, 3]), 0x03_02_01);
        assert_eq!(unsigned(&[0xFF; 8]), u64::MAX);
    }

    #[test]
    fn seven_bit_numbers_are_those_of_document_01() {
        assert_eq!(seven(&[0x82, 0x01, 7]), (130, &[7][..]));
        assert_eq!(seven(&[0x80, 0x00]), (0, &[][..]));
        assert_eq!(seven(&[0xFF, 0xFF, 0xFF, 0xFF, 0x0F]), (u32::MAX, &[][..]));
        let lengths = [0, 127, 128, 16_383, 16_384, 0xFFFF_FFFF].map(shortest_length);
        assert_eq!(lengths, [1, 1, 2, 2, 3, 5]);
    }
}
