//! The samples of packs as they are kept in the repository.

use super::marked::{self, MARKED};
use super::salvage::{self, SalvageSample};
use super::{Form, PackSample, PLAIN};
use crate::folder::topics;

/// Every kept pack, with its answers.
pub fn kept_packs() -> Vec<PackSample> {
    let packs = kept(PLAIN, super::samples());
    assert!(packs.len() >= 40, "only {} packs", packs.len());
    packs
}

/// Every kept marked pack, with its answers.
pub fn kept_marked_packs() -> Vec<PackSample> {
    let packs = kept(MARKED, marked::samples());
    assert!(packs.len() >= 20, "only {} marked packs", packs.len());
    packs
}

/// Every kept damaged pack, with what its salvage keeps and skips.
pub fn kept_damaged_packs() -> Vec<SalvageSample> {
    let mut packs = salvage::samples();
    for sample in &mut packs {
        (sample.bytes, sample.answers) = kept_file("salvage", &sample.name, "damaged", "salvage");
    }
    packs.sort_by(|one, other| one.name.cmp(&other.name));
    assert!(packs.len() >= 15, "only {} damaged packs", packs.len());
    packs
}

/// The samples of a form, with the bytes and the answers that are kept.
fn kept(form: Form, mut samples: Vec<PackSample>) -> Vec<PackSample> {
    for sample in &mut samples {
        (sample.bytes, sample.answers) =
            kept_file(form.topic, &sample.name, form.extension, "files");
    }
    samples.sort_by(|one, other| one.name.cmp(&other.name));
    samples
}

/// The bytes and the answers of a sample that is kept.
fn kept_file(topic: &str, name: &str, extension: &str, answers: &str) -> (Vec<u8>, String) {
    let path = topics().join(topic).join(name);
    let bytes = std::fs::read(path.with_extension(extension)).expect("a sample: run corpus/make");
    let answers = std::fs::read_to_string(path.with_extension(answers));
    (bytes, answers.expect("its answers"))
}

/// Every file of the samples: its topic, its name and its bytes.
pub fn files() -> Vec<(&'static str, String, Vec<u8>)> {
    let mut files = files_of(PLAIN, super::samples());
    files.extend(files_of(MARKED, marked::samples()));
    for sample in salvage::samples() {
        let answers = sample.answers.into_bytes();
        files.push(("salvage", format!("{}.damaged", sample.name), sample.bytes));
        files.push(("salvage", format!("{}.salvage", sample.name), answers));
    }
    files
}

/// A pack and its answers for each sample.
fn files_of(form: Form, samples: Vec<PackSample>) -> Vec<(&'static str, String, Vec<u8>)> {
    let mut files = Vec::new();
    for sample in samples {
        let pack = format!("{}.{}", sample.name, form.extension);
        files.push((form.topic, pack, sample.bytes));
        let answers = sample.answers.into_bytes();
        files.push((form.topic, format!("{}.files", sample.name), answers));
    }
    files
}
