//! Refusals, each once: its number, its name, what its place is, and its rule in words.

use crate::memory::NotMade;
use std::fmt::{self, Display, Formatter};

macro_rules! refusals {
    ($($number:literal $name:ident at $place:ident: $words:literal;)*) => {
        /// The rule that a file or a question breaks, by its number.
        ///
        /// ```
        /// use xnb::{Place, Refusal};
        ///
        /// let refusal = Refusal::of_number(7).expect("a known number");
        /// assert_eq!(refusal, Refusal::FileLength);
        /// assert_eq!(refusal.rule(), "the header's length is not the file's length");
        /// assert_eq!(refusal.place(), Place::Byte);
        /// assert_eq!(Refusal::OutputTooSmall.place(), Place::BytesNeeded);
        /// ```
        #[derive(Clone, Copy, Debug, PartialEq, Eq, PartialOrd, Ord, Hash)]
        #[cfg_attr(feature = "serde", derive(serde::Serialize))]
        #[non_exhaustive]
        pub enum Refusal {
            $(#[doc = concat!("Refusal ", $number, ": ", $words, ".")] $name = $number,)*
        }

        const REFUSALS: &[Refusal] = &[$(Refusal::$name),*];

        impl Refusal {
            /// The refusal of this number; 0 is none, and 10 became 33 to 38.
            pub fn of_number(number: u32) -> Option<Refusal> {
                Some(match number {
                    $($number => Refusal::$name,)*
                    _ => return None,
                })
            }

            /// The name of the variant.
            pub fn name(self) -> &'static str {
                match self {
                    $(Refusal::$name => stringify!($name),)*
                }
            }

            /// The rule in words.
            pub fn rule(self) -> &'static str {
                match self {
                    $(Refusal::$name => $words,)*
                }
            }

            /// What the number beside this refusal is.
            pub fn place(self) -> Place {
                match self {
                    $(Refusal::$name => Place::$place,)*
                }
            }
        }
    };
}

refusals! {
    1 PastEnd at Byte: "a field runs past the end of the file";
    2 NotXnb at Byte: "the file does not begin with XNB";
    3 Platform at Byte: "the platform is not w, m or x";
    4 FormatVersion at Byte: "the format version is not 5";
    5 Compressed at Byte: "the file is compressed";
    6 Flags at Byte: "a flag other than the profile is set";
    7 FileLength at Byte: "the header's length is not the file's length";
    8 BrokenNumber at Byte: "a seven-bit number has a wrong fifth byte";
    9 TooLarge at Byte: "the file, a count or a name's length is over its limit, or a name is empty";
    11 NameHead at Byte: "a reader's name has an unknown type or wrong arguments";
    12 ReaderVersion at Byte: "a reader's version is not 0";
    13 NoReader at Byte: "a type id is past the reader list, or its reader is never invoked";
    14 NotDeclared at Byte: "an object is not of the declared type";
    15 BadValue at Byte: "a value breaks the rule of its kind";
    16 NoResource at Byte: "a resource id is above the shared count";
    17 ResourceType at Byte: "a resource is of the wrong type";
    18 TooDeep at Byte: "a value is deeper than 32";
    19 NoRowLeft at Byte: "no row is left for a value";
    20 LeftOver at Byte: "bytes are left over behind the last object";
    21 OutputTooSmall at BytesNeeded: "the output is too small for what is written";
    22 FontRule at Byte: "a font lacks an object, or its lists differ in count, or its characters do not rise";
    23 NoSuchRow at Row: "there is no such row";
    24 OtherKind at Row: "the row is not of the kind asked for";
    31 NoTableRoom at Byte: "the table has no room for a file";
    32 EnumEntry at EnumEntry: "an entry of the enum list is cut short, or its size or its name breaks a rule";
    33 EmptyHead at Byte: "empty head";
    34 HeadByte at Byte: "bad byte in a head";
    35 ArgumentDigit at Byte: "digit not 1 or 2";
    36 ArgumentBrackets at Byte: "argument brackets out of form or followed by a wrong byte";
    37 TailByte at Byte: "bad byte in a tail";
    38 NestedTooDeep at Byte: "nested past 8";
    41 NotWindows at Byte: "the platform is not w, which the driver's screen asks for";
    42 NotShortest at Byte: "a seven-bit number is not in its shortest form";
    43 UnusedReader at Byte: "a listed reader is used by no type id";
    44 EqualReaders at Byte: "a reader has the target of an earlier one";
    45 RepeatedKey at Byte: "a String key has the bytes of an earlier one in its dictionary";
    46 NotPage at Byte: "the first object is not a Page";
    47 NoNextPage at Byte: "the next of a page has resource id 0";
    51 MissingMark at Byte: "a file's record does not begin with a mark";
    52 ListTooShort at StretchesNeeded: "the list is too short for the skipped stretches";
    61 NotTextArray at Byte: "the primary object is not an Array of String, or there are shared objects";
    62 NullText at Row: "a text is null";
    63 NotInXml at Row: "a text has a character below 20 hex, U+FFFE or U+FFFF, which XML cannot hold";
    64 NotExported at Byte: "the XML is not of the form that the export writes";
    71 FigureTooLarge at Zero: "a figure of the report would pass 2 to the 64 less 1";
    72 NoRowRoom at Zero: "the row table has no room for 65,536 rows";
}

/// What the number beside a refusal is.
#[derive(Clone, Copy, Debug, PartialEq, Eq, Hash)]
#[cfg_attr(feature = "serde", derive(serde::Serialize))]
#[non_exhaustive]
pub enum Place {
    /// A byte of the file, of the pack or of the XML, counted from 0.
    Byte,
    /// The number of bytes that the output needs.
    BytesNeeded,
    /// The number of stretches that the list needs.
    StretchesNeeded,
    /// A row number.
    Row,
    /// An entry of the enum list, counted from 0.
    EnumEntry,
    /// It is 0 and says nothing.
    Zero,
}

impl Place {
    /// A number of this meaning in words, such as `at byte 6`; nothing if it says nothing.
    ///
    /// ```
    /// use xnb::Place;
    ///
    /// assert_eq!(Place::Byte.told(6).as_deref(), Some("at byte 6"));
    /// assert_eq!(Place::BytesNeeded.told(65).as_deref(), Some("which takes 65 bytes"));
    /// assert_eq!(Place::Zero.told(0), None);
    /// ```
    pub fn told(self, place: u64) -> Option<String> {
        Some(match self {
            Place::Byte => format!("at byte {place}"),
            Place::BytesNeeded => format!("which takes {place} bytes"),
            Place::StretchesNeeded => format!("which are {place}"),
            Place::Row => format!("row {place}"),
            Place::EnumEntry => format!("entry {place}, counted from 0"),
            Place::Zero => return None,
        })
    }
}

impl Refusal {
    /// The number.
    #[inline]
    pub fn number(self) -> u32 {
        self as u32
    }

    /// Every refusal, by rising number.
    pub fn all() -> impl ExactSizeIterator<Item = Refusal> {
        REFUSALS.iter().copied()
    }

    /// Whether a file breaks the driver's profile alone (41 to 47).
    pub(crate) fn is_of_profile(self) -> bool {
        (Refusal::NotWindows..=Refusal::NoNextPage).contains(&self)
    }

    /// Whether a reader's name breaks the grammar (33 to 38).
    fn is_of_grammar(self) -> bool {
        (Refusal::EmptyHead..=Refusal::NestedTooDeep).contains(&self)
    }

    /// A rule of this refusal with its place in words.
    pub(crate) fn tell(self, rule: &str, place: u64, out: &mut Formatter) -> fmt::Result {
        match self.place().told(place) {
            Some(place) => write!(out, "{rule}, {place}"),
            None => write!(out, "{rule}"),
        }
    }
}

/// A refusal and its place, of which [`Refusal::place`] says what it is.
#[derive(Clone, Copy, Debug, PartialEq, Eq)]
#[cfg_attr(feature = "serde", derive(serde::Serialize))]
pub struct Refused {
    /// The rule that is broken.
    pub refusal: Refusal,
    /// Where, or what is needed.
    pub place: u32,
}

impl Refused {
    /// Nothing for 0, else the refusal of this number.
    pub(crate) fn check(number: u32, place: u32) -> Result<(), Refused> {
        if number == 0 {
            return Ok(());
        }
        let refusal = Refusal::of_number(number).expect("the library answers with known numbers");
        Err(Refused { refusal, place })
    }
}

impl Display for Refused {
    fn fmt(&self, out: &mut Formatter) -> fmt::Result {
        if self.refusal.is_of_grammar() {
            write!(out, "a reader's name: ")?;
        }
        self.refusal
            .tell(self.refusal.rule(), u64::from(self.place), out)
    }
}

impl std::error::Error for Refused {}

/// Why nothing was made of a file: it breaks a rule, or there is no memory for what is made.
pub type FileError = NotMade<Refused>;

impl From<Refused> for FileError {
    fn from(refused: Refused) -> FileError {
        FileError::Refused(refused)
    }
}

#[cfg(test)]
mod tests {
    use super::*;
    use Refusal::*;

    #[test]
    fn numbers_and_refusals_match() {
        let known = (1..=9).chain(11..=24).chain(31..=38).chain(41..=47);
        let known: Vec<u32> = known.chain([51, 52, 61, 62, 63, 64, 71, 72]).collect();
        assert!(Refusal::all().map(Refusal::number).eq(known.clone()));
        for number in 0..100 {
            let refusal = Refusal::of_number(number);
            let number = known.contains(&number).then_some(number);
            assert_eq!(refusal.map(Refusal::number), number);
        }
    }

    #[test]
    fn a_refusal_is_reported_in_words() {
        let reported = |refusal, place| Refused { refusal, place }.to_string();
        let length = "the header's length is not the file's length, at byte 6";
        assert_eq!(reported(FileLength, 6), length);
        let output = "the output is too small for what is written, which takes 65 bytes";
        assert_eq!(reported(OutputTooSmall, 65), output);
        assert_eq!(reported(NoSuchRow, 9), "there is no such row, row 9");
        let entry =
            "an entry of the enum list is cut short, or its size or its name breaks a rule, \
            entry 2, counted from 0";
        assert_eq!(reported(EnumEntry, 2), entry);
        let head = "a reader's name: bad byte in a head, at byte 48";
        assert_eq!(reported(HeadByte, 48), head);
        assert_eq!(reported(NullText, 3), "a text is null, row 3");
        let room = "the row table has no room for 65,536 rows";
        assert_eq!(reported(NoRowRoom, 0), room);
    }
}
