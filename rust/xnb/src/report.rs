//! What many packs contain: files, refusals by number, rows by kind, text and image bytes.
//!
//! ```
//! use xnb::report::Counter;
//! use xnb::{Kind, Refusal};
//!
//! // A null object, a file that is cut, and one that is no XNB file.
//! let monday = b"\x03\0\0\0\x01a\x0D\0\0\0XNBw\x05\x00\x0D\x00\x00\x00\x00\x00\x00\x01b\x03\0\0\0XNB\x01c\0\0\0\0";
//! let mut counter = Counter::new();
//! counter.add(monday)?;
//! let report = counter.report();
//! assert_eq!((report.files(), report.accepted(), report.refused()), (3, 1, 1));
//! assert_eq!(report.refusals(Refusal::PastEnd), 1);
//! assert_eq!(report.rows(Kind::Null), 1);
//!
//! // A refused pack changes no figure.
//! let refused = counter.add(b"\x01\0\0\0").unwrap_err();
//! assert_eq!(refused.to_string(), "a field runs past the end of the pack, at byte 4");
//! assert_eq!(counter.report().files(), 3);
//!
//! // Reports of two runs add up.
//! let mut season = counter.report().clone();
//! season.add(counter.report())?;
//! assert_eq!(season.files(), 6);
//! # Ok::<(), xnb::pack::PackRefused>(())
//! ```

use crate::kind::Kind;
use crate::loader::Loader;
use crate::pack::{PackRefused, MOST_FILES, WORDS_PER_FILE};
use crate::raw;
use crate::refusal::Refusal;
use crate::row::{MOST_ROWS, WORDS_PER_ROW};

/// The words of a report.
pub const REPORT_WORDS: usize = 132;
/// The words of a row table with room for the rows of every file.
pub const ROW_WORDS: usize = WORDS_PER_ROW * MOST_ROWS;

const FILES: usize = 0;
const ACCEPTED: usize = 1;
const TEXT_BYTES: usize = 2;
const IMAGE_BYTES: usize = 3;
/// The word of refusal 0; those of the other numbers below 64 follow.
const REFUSALS: usize = 4;
/// The word of kind 0; those of the other kinds below 64 follow.
const KINDS: usize = 68;

/// Figures over packs, all 0 at first.
///
/// ```
/// use xnb::report::{Report, REPORT_WORDS};
///
/// let mut words = [0; REPORT_WORDS];
/// words[0] = u64::MAX;
/// let mut report = Report::of_words(words);
/// let more = Report::of_words(words);
/// let refused = report.add(&more).unwrap_err();
/// assert_eq!(refused.refusal, xnb::Refusal::FigureTooLarge);
/// assert_eq!(report, more, "unchanged");
/// ```
#[derive(Clone, Debug, PartialEq, Eq)]
pub struct Report {
    words: [u64; REPORT_WORDS],
}

impl Default for Report {
    fn default() -> Report {
        Report::of_words([0; REPORT_WORDS])
    }
}

impl Report {
    /// A report of no pack.
    pub fn new() -> Report {
        Report::default()
    }

    /// The report in these words, as the entries have it.
    pub fn of_words(words: [u64; REPORT_WORDS]) -> Report {
        Report { words }
    }

    /// Its words: files, accepted files, text bytes, image bytes, refusals by number from word 4 on, rows by kind from
    /// word 68 on.
    pub fn words(&self) -> &[u64; REPORT_WORDS] {
        &self.words
    }

    /// The number of files, XNB files or not.
    pub fn files(&self) -> u64 {
        self.words[FILES]
    }

    /// The number of XNB files that are accepted.
    pub fn accepted(&self) -> u64 {
        self.words[ACCEPTED]
    }

    /// The number of XNB files that are refused.
    pub fn refused(&self) -> u64 {
        total(self.each_refusal().map(|(_, files)| files))
    }

    /// The bytes of all texts, without their counts.
    pub fn text_bytes(&self) -> u64 {
        self.words[TEXT_BYTES]
    }

    /// The bytes of all image levels, without their sizes.
    pub fn image_bytes(&self) -> u64 {
        self.words[IMAGE_BYTES]
    }

    /// The number of XNB files that are refused so.
    pub fn refusals(&self, refusal: Refusal) -> u64 {
        let number = refusal.number() as usize;
        self.words[REFUSALS..KINDS]
            .get(number)
            .copied()
            .unwrap_or(0)
    }

    /// Each refusal that occurs with its number of files, in order of number.
    pub fn each_refusal(&self) -> impl Iterator<Item = (Refusal, u64)> + '_ {
        let files = (0..).zip(&self.words[REFUSALS..KINDS]);
        let files = files.filter(|(_, files)| **files > 0);
        files.filter_map(|(number, files)| Some((Refusal::of_number(number)?, *files)))
    }

    /// The number of rows of a kind in all accepted files.
    pub fn rows(&self, kind: Kind) -> u64 {
        self.words[KINDS + kind.number() as usize]
    }

    /// Each kind that occurs with its number of rows, in order of number.
    pub fn each_kind(&self) -> impl Iterator<Item = (Kind, u64)> + '_ {
        let rows = Kind::all().map(|kind| (kind, self.rows(kind)));
        rows.filter(|(_, rows)| *rows > 0)
    }

    /// The number of rows of all kinds.
    pub fn all_rows(&self) -> u64 {
        total(self.each_kind().map(|(_, rows)| rows))
    }

    /// Adds another report; it is unchanged if a figure would pass 2 to the 64 less 1.
    pub fn add(&mut self, other: &Report) -> Result<(), PackRefused> {
        let refusal = raw::report::sum(&mut self.words, &other.words);
        PackRefused::number((refusal, 0)).map(|_| ())
    }

    /// Adds the figures of a pack, with these words for its files and for the rows of each of them.
    ///
    /// The report is unchanged after a refusal. The words for rows must be [`ROW_WORDS`] or more, and are left zero; the
    /// table is left as [`pack::read`](crate::pack::read) leaves it.
    pub fn add_pack(
        &mut self,
        loader: Loader,
        pack: &[u8],
        table: &mut [u64],
        words: &mut [u32],
    ) -> Result<(), PackRefused> {
        let enums = loader.enum_bytes();
        let answer = raw::report::add(pack, enums, table, words, &mut self.words);
        PackRefused::number(answer).map(|_| ())
    }
}

/// A sum that stops at the largest number.
fn total(figures: impl Iterator<Item = u64>) -> u64 {
    figures.fold(0, u64::saturating_add)
}

/// Counts packs into a report, with room of its own for the files of each pack and the rows of each file.
#[derive(Clone, Debug)]
pub struct Counter<'e> {
    loader: Loader<'e>,
    table: Vec<u64>,
    words: Vec<u32>,
    report: Report,
}

impl Default for Counter<'static> {
    fn default() -> Counter<'static> {
        Counter::new()
    }
}

impl Counter<'static> {
    /// A counter with an empty list of enum types.
    pub fn new() -> Counter<'static> {
        Counter::by(Loader::new())
    }
}

impl<'e> Counter<'e> {
    /// A counter with the list of a loader; under a refused list each XNB file counts as refused with 32.
    pub fn by(loader: Loader<'e>) -> Counter<'e> {
        Counter {
            loader,
            table: vec![0; WORDS_PER_FILE * MOST_FILES],
            words: vec![0; ROW_WORDS],
            report: Report::new(),
        }
    }

    /// Counts a pack; one that is refused changes no figure.
    pub fn add(&mut self, pack: &[u8]) -> Result<(), PackRefused> {
        let (table, words) = (&mut self.table, &mut self.words);
        self.report.add_pack(self.loader, pack, table, words)
    }

    /// What was counted until now.
    pub fn report(&self) -> &Report {
        &self.report
    }

    /// The report of all that was counted; what is counted from now on starts anew.
    pub fn take(&mut self) -> Report {
        std::mem::take(&mut self.report)
    }
}
