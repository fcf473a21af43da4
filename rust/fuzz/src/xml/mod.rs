//! Lists of texts and their XML: Req 13.
//!
//! `exports::case(seed)` gives a file to be exported, `imports::case(seed)` XML to be imported, and the `limits` of both
//! those at bounds; equal seeds give equal cases.

pub mod exports;
pub mod imports;
mod texts;

pub use texts::{file_of, xml_of};

/// What every program must answer.
#[derive(Clone, Debug, PartialEq, Eq)]
pub enum XmlKnown {
    /// The XML of an export, or the file of an import.
    Written(Vec<u8>),
    Refused {
        number: u32,
        place: usize,
    },
}

fn refused(number: u32, place: usize) -> Option<XmlKnown> {
    Some(XmlKnown::Refused { number, place })
}
