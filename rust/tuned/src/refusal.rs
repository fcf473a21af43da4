//! Refusals and their numbers in 01 and 02.

/// Why a file, a list or a pack is refused, and where.
#[derive(Clone, Copy, Debug, PartialEq, Eq)]
pub struct Refusal {
    pub number: u32,
    pub place: usize,
}

pub const PAST_END: u32 = 1;
pub const NOT_XNB: u32 = 2;
pub const PLATFORM: u32 = 3;
pub const FORMAT_VERSION: u32 = 4;
pub const COMPRESSED: u32 = 5;
pub const FLAGS: u32 = 6;
pub const FILE_LENGTH: u32 = 7;
pub const BROKEN_NUMBER: u32 = 8;
pub const TOO_LARGE: u32 = 9;
pub const NAME_HEAD: u32 = 11;
pub const READER_VERSION: u32 = 12;
pub const NO_READER: u32 = 13;
pub const NOT_DECLARED: u32 = 14;
pub const BAD_VALUE: u32 = 15;
pub const NO_RESOURCE: u32 = 16;
pub const RESOURCE_TYPE: u32 = 17;
pub const TOO_DEEP: u32 = 18;
pub const NO_ROW_LEFT: u32 = 19;
pub const LEFT_OVER: u32 = 20;
pub const OUTPUT_TOO_SMALL: u32 = 21;
pub const FONT_RULE: u32 = 22;
pub const NO_TABLE_ROOM: u32 = 31;
pub const ENUM_LIST: u32 = 32;
pub const EMPTY_HEAD: u32 = 33;
pub const HEAD_BYTE: u32 = 34;
pub const DIGIT: u32 = 35;
pub const BRACKETS: u32 = 36;
pub const TAIL_BYTE: u32 = 37;
pub const NESTED_TOO_DEEP: u32 = 38;

/// A refusal as the answer of any reading.
#[cold]
pub fn refuse<T>(number: u32, place: usize) -> Result<T, Refusal> {
    Err(Refusal { number, place })
}
