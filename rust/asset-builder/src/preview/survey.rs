//! What each file is answered with, before a page is written.

use super::markup::{counted, grouped};
use super::Maker;
use crate::commands::pack;
use crate::refusal::Told;
use std::fmt::{self, Display, Formatter};
use std::path::Path;
use xnb::{Refused, Table, WORDS_PER_ROW};

/// A refusal in short.
#[derive(Clone, Copy, Debug, PartialEq, Eq)]
pub struct Brief {
    pub number: u32,
    pub place: u64,
    pub rule: &'static str,
}

/// What the loader answers.
#[derive(Clone, Copy, Debug, PartialEq, Eq)]
pub enum Answer {
    Taken { rows: usize, padding: usize },
    Refused(Brief),
}

/// What is known of a file.
#[derive(Clone, Debug, PartialEq, Eq)]
pub struct Surveyed {
    pub bytes: usize,
    pub answer: Answer,
    /// What the driver's profile says, if it is asked: nothing, or why not.
    pub driver: Option<Option<Brief>>,
}

/// What an input turned out to be.
#[derive(Debug, PartialEq, Eq)]
pub enum Content {
    /// Why it could not be read.
    Unread(String),
    File(Surveyed),
    Pack {
        bytes: usize,
        marked: bool,
        /// Each with its path.
        files: Vec<(String, Surveyed)>,
    },
    RefusedPack {
        bytes: usize,
        refused: Brief,
    },
}

impl Maker<'_> {
    /// What an input is, by its name and its first bytes, and what each file of it is answered with.
    pub fn survey(&self, path: &Path, bytes: &[u8]) -> Content {
        if !is_pack(path, bytes) {
            return Content::File(self.surveyed(bytes, &self.load(bytes)));
        }
        match pack::open(bytes, false) {
            Ok(opened) => Content::Pack {
                bytes: bytes.len(),
                marked: opened.marked,
                files: opened
                    .files
                    .iter()
                    .map(|file| {
                        let data = opened.data(file);
                        (file.path.clone(), self.surveyed(data, &self.load(data)))
                    })
                    .collect(),
            },
            Err(pack::Unopened::Refused(told)) => Content::RefusedPack {
                bytes: bytes.len(),
                refused: Brief::of(&told),
            },
            Err(pack::Unopened::Failed(why)) => Content::Unread(why),
        }
    }

    pub fn load<'f>(&self, file: &'f [u8]) -> Result<Table<'f>, Refused> {
        let rows = file.len().min(self.room as usize);
        self.loader.load_into(file, vec![0; WORDS_PER_ROW * rows])
    }

    /// What a file is answered with, of which one answer is known.
    pub fn surveyed(&self, file: &[u8], loaded: &Result<Table, Refused>) -> Surveyed {
        let driver = self.driver && loaded.is_ok();
        Surveyed {
            bytes: file.len(),
            answer: match loaded {
                Ok(table) => Answer::Taken {
                    rows: table.loaded().rows,
                    padding: table.padding(),
                },
                Err(refused) => Answer::Refused(Brief::of_refused(*refused)),
            },
            driver: driver.then(|| {
                let refused = self.loader.load_driver(file).err()?;
                Some(Brief::of_refused(refused))
            }),
        }
    }
}

impl Surveyed {
    /// Whether the loader refuses it.
    pub fn is_refused(&self) -> bool {
        matches!(self.answer, Answer::Refused(_))
    }

    /// Whether the loader takes it, and the driver's profile does not.
    pub fn is_not_for_driver(&self) -> bool {
        matches!(self.driver, Some(Some(_)))
    }
}

/// How many files there are, and what comes of them.
#[derive(Clone, Copy, Debug, Default, PartialEq, Eq)]
pub struct Counts {
    pub files: usize,
    pub refused: usize,
    pub not_for_driver: usize,
}

impl Counts {
    /// Those of all inputs; a pack that is refused counts as one file.
    pub fn of<'c>(contents: impl Iterator<Item = &'c Content>) -> Counts {
        let mut counts = Counts::default();
        for content in contents {
            for (_, file) in content.files() {
                counts.files += 1;
                counts.refused += usize::from(file.is_refused());
                counts.not_for_driver += usize::from(file.is_not_for_driver());
            }
            if matches!(content, Content::RefusedPack { .. }) {
                counts.files += 1;
                counts.refused += 1;
            }
        }
        counts
    }

    /// Whether anything is refused.
    pub fn has_refusals(self) -> bool {
        self.refused + self.not_for_driver > 0
    }
}

/// `2 files: 1 taken, 1 refused`.
impl Display for Counts {
    fn fmt(&self, out: &mut Formatter) -> fmt::Result {
        let files = counted(self.files, "file", "files");
        let (taken, refused) = (grouped(self.files - self.refused), grouped(self.refused));
        write!(out, "{files}: {taken} taken, {refused} refused")?;
        if self.not_for_driver > 0 {
            let others = grouped(self.not_for_driver);
            write!(out, "; {others} not taken by the driver's own screen")?;
        }
        Ok(())
    }
}

impl Content {
    /// Every file of it with its path, if it has one of its own.
    pub fn files(&self) -> Vec<(Option<&str>, &Surveyed)> {
        match self {
            Content::Unread(_) | Content::RefusedPack { .. } => Vec::new(),
            Content::File(file) => vec![(None, file)],
            Content::Pack { files, .. } => {
                let files = files.iter();
                files
                    .map(|(path, file)| (Some(path.as_str()), file))
                    .collect()
            }
        }
    }
}

impl Brief {
    pub fn of(told: &Told) -> Brief {
        Brief {
            number: told.number(),
            place: told.place(),
            rule: told.rule(),
        }
    }

    fn of_refused(refused: Refused) -> Brief {
        Brief {
            number: refused.refusal.number(),
            place: refused.place.into(),
            rule: refused.refusal.rule(),
        }
    }
}

impl Display for Brief {
    fn fmt(&self, out: &mut Formatter) -> fmt::Result {
        let Brief {
            number,
            place,
            rule,
        } = self;
        write!(out, "refused {number} at {place}: {rule}")
    }
}

/// Whether an input is a pack: by its name, or else because it is one and does not begin as a file.
pub fn is_pack(path: &Path, bytes: &[u8]) -> bool {
    let extension = path.extension().unwrap_or_default();
    if extension.eq_ignore_ascii_case("xnb") {
        return false;
    }
    if extension.eq_ignore_ascii_case("pak") {
        return true;
    }
    !bytes.starts_with(b"XNB") && pack::open(bytes, false).is_ok()
}
