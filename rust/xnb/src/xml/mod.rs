//! Text lists to and from XML, for translators.
//!
//! ```
//! let xml = concat!(
//!     "<?xml version=\"1.0\" encoding=\"utf-8\"?><XnaContent><Asset Type=\"string[]\">",
//!     "<Item>Doors &amp; steps</Item><Item>Türen</Item></Asset></XnaContent>",
//! );
//! let file = xnb::xml::import(xml)?;
//! let table = xnb::Table::load(&file)?;
//! let texts: Vec<&str> = table.children(0).map(|row| table.text(row)).collect::<Result<_, _>>()?;
//! assert_eq!(texts, ["Doors & steps", "Türen"]);
//! assert_eq!(xnb::xml::export(&file)?, xml);
//! # Ok::<(), Box<dyn std::error::Error>>(())
//! ```

mod expected;

pub use expected::Expected;

use crate::calls::unpacked;
use crate::loader::Loader;
use crate::memory::{zeros, NotMade};
use crate::raw;
use crate::refusal::{FileError, Refusal, Refused};
use crate::row::{full_room, LONGEST_FILE};
use std::fmt::{self, Display, Formatter};

/// A list never has more texts: a table has a row for each, and one for the list.
pub const MOST_TEXTS: usize = 65_535;
/// How many bytes more than its XML a file has at most: that of no text.
const LONGER_THAN_XML: usize = 39;

/// The XML of a file whose primary object is an Array of String, and which has no shared objects.
///
/// ```
/// let null = b"XNBw\x05\x00\x0D\x00\x00\x00\x00\x00\x00";
/// let refused = xnb::xml::export(null).unwrap_err().refused().expect("a rule is broken");
/// assert_eq!(refused.refusal, xnb::Refusal::NotTextArray);
/// assert_eq!(refused.place, 12);
/// ```
pub fn export(file: &[u8]) -> Result<String, FileError> {
    Loader::new().export_xml(file)
}

impl Loader<'_> {
    /// The XML of a file, as [`xml::export`](crate::xml::export) gives it.
    pub fn export_xml(self, file: &[u8]) -> Result<String, FileError> {
        let mut words = zeros(full_room(file))?;
        // Mostly enough; XML with many entities takes more.
        let mut out = zeros(2 * file.len().min(LONGEST_FILE))?;
        let mut answer = self.export_xml_into(file, &mut words, &mut out);
        if let Err(Refused {
            refusal: Refusal::OutputTooSmall,
            place,
        }) = answer
        {
            out = zeros(place as usize)?;
            answer = self.export_xml_into(file, &mut words, &mut out);
        }
        out.truncate(answer?);
        Ok(String::from_utf8(out).expect("an export is text"))
    }

    /// Writes the XML of a file to the start of the output and answers its length.
    ///
    /// The words are left as by a load of the file, and zero after a refusal; the output is untouched after a refusal,
    /// and behind the XML.
    pub fn export_xml_into(
        self,
        file: &[u8],
        words: &mut [u32],
        out: &mut [u8],
    ) -> Result<usize, Refused> {
        unpacked(raw::xml::export(file, self.enum_bytes(), words, out))
    }
}

/// The shortest file with the texts of XML that [`export`] can write.
///
/// Its readers are those of an Array of String and of String, its platform is `w`, and its flags are 0.
///
/// ```
/// let xml = "<?xml version=\"1.0\" encoding=\"utf-8\"?><XnaContent><Asset Type=\"string[]\"><Item>A & B";
/// let refused = xnb::xml::import(xml).unwrap_err().refused().expect("a rule is broken");
/// assert_eq!(refused.refusal, xnb::Refusal::NotExported);
/// assert_eq!(refused.place, 82);
/// assert_eq!(refused.to_string(), "the XML is not of the form that the export writes, at byte 82");
///
/// let expected = xnb::xml::Expected::at(xml, 82);
/// assert_eq!(expected.to_string(), "amp; lt; gt; or quot; behind &");
/// ```
pub fn import(xml: impl AsRef<[u8]>) -> Result<Vec<u8>, XmlError> {
    let xml = xml.as_ref();
    let longest = xml.len().saturating_add(LONGER_THAN_XML);
    let mut out = zeros(longest.min(LONGEST_FILE))?;
    let length = import_into(xml, &mut out)?;
    out.truncate(length);
    Ok(out)
}

/// Writes the shortest file with the texts of XML to the start of the output and answers its length.
///
/// The output is untouched after a refusal, and behind the file.
///
/// ```
/// let xml = b"<?xml version=\"1.0\" encoding=\"utf-8\"?><XnaContent><Asset Type=\"string[]\"></Asset></XnaContent>";
/// let refused = xnb::xml::import_into(xml, &mut []).unwrap_err();
/// assert_eq!(refused.to_string(), "the output is too small for the file, which takes 133 bytes");
/// assert_eq!(xnb::xml::import_into(xml, &mut [0; 133])?, 133);
/// # Ok::<(), xnb::xml::XmlRefused>(())
/// ```
pub fn import_into(xml: &[u8], out: &mut [u8]) -> Result<usize, XmlRefused> {
    let (refusal, at) = raw::xml::import(xml, out);
    if refusal == 0 {
        return Ok(at as usize);
    }
    let refusal = Refusal::of_number(refusal).expect("the library answers with known numbers");
    Err(XmlRefused { refusal, place: at })
}

/// A refusal of an import and its place: a byte of the XML, or the bytes of output that are needed.
#[derive(Clone, Copy, Debug, PartialEq, Eq)]
#[cfg_attr(feature = "serde", derive(serde::Serialize))]
pub struct XmlRefused {
    /// The rule that is broken.
    pub refusal: Refusal,
    /// Where, or what is needed.
    pub place: u64,
}

impl XmlRefused {
    /// The rule in words, as it is reported of XML.
    pub fn rule(self) -> &'static str {
        match self.refusal {
            Refusal::TooLarge => {
                "there are more than 65,535 texts, or their file is over its limit"
            }
            Refusal::OutputTooSmall => "the output is too small for the file",
            other => other.rule(),
        }
    }
}

impl Display for XmlRefused {
    fn fmt(&self, out: &mut Formatter) -> fmt::Result {
        self.refusal.tell(self.rule(), self.place, out)
    }
}

impl std::error::Error for XmlRefused {}

/// Why there is no file: the XML breaks a rule, or there is no memory for the file.
pub type XmlError = NotMade<XmlRefused>;

impl From<XmlRefused> for XmlError {
    fn from(refused: XmlRefused) -> XmlError {
        XmlError::Refused(refused)
    }
}
