//! The files that pad, most padding first, and the sums of the folders that were named.

use super::check::{Accepted, Checked};
use super::counted;
use crate::input::Input;
use crate::json::{Folder, Line, Report};
use crate::names::shown;
use crate::run::{End, Run};
use serde::Serialize;
use std::cmp::Reverse;
use std::collections::BTreeMap;
use std::path::PathBuf;

/// The padding of several accepted files.
#[derive(Clone, Copy, Default, Serialize)]
pub struct Padding {
    pub padding: u64,
    /// The number of files that pad.
    pub padded: usize,
}

/// Accepted files, to be reported by their padding.
#[derive(Default)]
pub struct Ranking {
    /// Those that pad, in the order in which they were met.
    files: Vec<(Input, Accepted)>,
    folders: BTreeMap<PathBuf, Sum>,
}

/// What the accepted files below a folder pad.
#[derive(Clone, Copy, Default, Serialize)]
struct Sum {
    accepted: usize,
    #[serde(flatten)]
    padding: Padding,
}

/// What is reported of a folder.
#[derive(Serialize)]
struct FolderSum {
    #[serde(flatten)]
    folder: Folder,
    #[serde(flatten)]
    sum: Sum,
}

impl Padding {
    pub fn add(&mut self, accepted: &Accepted) {
        self.padding += accepted.padding as u64;
        self.padded += usize::from(accepted.padding > 0);
    }
}

impl Ranking {
    pub fn add(&mut self, input: &Input, accepted: Accepted) {
        if let Some(folder) = input.folder() {
            let sum = self.folders.entry(folder.to_path_buf()).or_default();
            sum.accepted += 1;
            sum.padding.add(&accepted);
        }
        if accepted.padding > 0 {
            self.files.push((input.clone(), accepted));
        }
    }

    /// Prints the files and then the folders that pad, most first; of equal ones the order stays.
    pub fn print(mut self, run: &mut Run, json: bool) -> End {
        self.files.sort_by_key(|(_, it)| Reverse(it.padding));
        for (input, accepted) in &self.files {
            run.print(&match json {
                true => Report::line(input, Checked::accepted(*accepted)),
                false => file_line(&run.paint().name(&input.shown()), accepted),
            })?;
        }
        let mut folders: Vec<_> = self.folders.into_iter().collect();
        folders.retain(|(_, sum)| sum.padding.padded > 0);
        folders.sort_by_key(|(_, sum)| Reverse(sum.padding.padding));
        for (path, sum) in folders {
            run.print(&match json {
                true => Line::of(FolderSum {
                    folder: Folder::of(&path),
                    sum,
                }),
                false => folder_line(&run.paint().name(&shown(&path)), sum),
            })?;
        }
        Ok(())
    }
}

fn file_line(name: &str, accepted: &Accepted) -> String {
    let (padding, bytes) = (accepted.padding, accepted.bytes);
    format!("{name}: padding {padding} of {bytes} bytes\n")
}

fn folder_line(name: &str, sum: Sum) -> String {
    let Padding { padding, padded } = sum.padding;
    let accepted = counted(sum.accepted, "file", "files");
    format!("{name}: padding {padding} in {padded} of {accepted}\n")
}
