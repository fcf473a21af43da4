//! The samples as files: those that the repository keeps, and a folder of all of them for programs that are run.
//!
//! The repository keeps a folder for each topic. What a literal text has byte by byte is no file besides, unless a page
//! or an example names it; what the writer made is kept, so that a change of the writer is seen.

use crate::packs::folder::files as pack_files;
use crate::sample::Sample;
use crate::{enums, reports, samples, xml};
use std::collections::BTreeSet;
use std::hash::{DefaultHasher, Hash, Hasher};
use std::path::{Path, PathBuf};
use std::sync::OnceLock;

/// The repository's root.
pub fn root() -> PathBuf {
    Path::new(env!("CARGO_MANIFEST_DIR")).join("../..")
}

/// The folder of the topics.
pub fn topics() -> PathBuf {
    root().join("corpus")
}

/// A file of a sample.
#[derive(Hash)]
pub struct SampleFile {
    pub topic: &'static str,
    pub name: String,
    pub bytes: Vec<u8>,
    /// Whether a literal text has it.
    pub typed: bool,
}

/// Every file of every sample, those that are tried by the second loader alone only if asked for.
pub fn all_files(further: bool) -> Vec<SampleFile> {
    let mut files = Vec::new();
    let mut add = |topic, typed, of_sample: Vec<(String, Vec<u8>)>| {
        files.extend(of_sample.into_iter().map(|(name, bytes)| SampleFile {
            topic,
            name,
            bytes,
            typed,
        }));
    };
    for sample in samples().into_iter().chain(enums::samples()) {
        if sample.kept || further {
            add(sample.topic, sample.typed, sample.files());
        }
    }
    for (topic, name, bytes) in pack_files() {
        add(topic, false, vec![(name, bytes)]);
    }
    for sample in xml::samples() {
        add("imports", true, sample.files().into());
    }
    for sample in reports::samples() {
        add("reports", true, sample.files().into());
    }
    files
}

/// Every file that the repository keeps.
pub fn kept() -> Vec<SampleFile> {
    let named = named_files();
    let mut files = all_files(false);
    files.retain(|file| {
        let stem = file.name.split('.').next().expect("a name");
        !file.typed || named.contains(&format!("{}/{stem}", file.topic))
    });
    files
}

/// The topic and the name of each sample that a page or an example names as `corpus/TOPIC/NAME`.
fn named_files() -> BTreeSet<String> {
    let mut pages = vec![
        root().join("README.md"),
        root().join("rust/NOTES.md"),
        root().join("rust/xnb/examples/c/rows.c"),
    ];
    for entry in std::fs::read_dir(root().join("docs")).expect("the documents are there") {
        let path = entry.expect("a document").path();
        if path.extension().is_some_and(|it| it == "md") {
            pages.push(path);
        }
    }
    let mut named = BTreeSet::new();
    for page in pages {
        let text = std::fs::read_to_string(page).expect("a page");
        for behind in text.split("corpus/").skip(1) {
            let name = behind.split(|it: char| !(it.is_ascii_alphanumeric() || "-/".contains(it)));
            named.insert(name.take(1).collect());
        }
    }
    named
}

/// A folder with every file of every sample, beside each other, below rust/target.
///
/// It is written once for all tests: its name tells what is in it.
pub fn folder() -> PathBuf {
    static FOLDER: OnceLock<PathBuf> = OnceLock::new();
    FOLDER.get_or_init(write_folder).clone()
}

fn write_folder() -> PathBuf {
    let files = all_files(false);
    let mut hasher = DefaultHasher::new();
    files.hash(&mut hasher);
    let target = root().join("rust/target");
    let folder = target.join(format!("samples-{:016x}", hasher.finish()));
    if !folder.is_dir() {
        let unfinished = target.join(format!("samples-{}", std::process::id()));
        std::fs::create_dir_all(&unfinished).expect("a folder");
        for file in files {
            std::fs::write(unfinished.join(file.name), file.bytes).expect("a sample");
        }
        // Another test may have written it meanwhile.
        if std::fs::rename(&unfinished, &folder).is_err() {
            std::fs::remove_dir_all(&unfinished).expect("a folder of this process");
        }
    }
    folder.canonicalize().expect("the folder of samples")
}

/// Every sample that is loaded with an empty list, with what `rows` must print for it and its padding.
pub fn kept_files() -> Vec<Sample> {
    let mut files = all_kept_files();
    files.retain(|file| file.enums.is_empty());
    assert!(files.len() >= 600, "only {} samples", files.len());
    files
}

/// Every sample that is loaded with a list of enums, with that list.
pub fn kept_files_with_enums() -> Vec<Sample> {
    let mut files = all_kept_files();
    files.retain(|file| !file.enums.is_empty());
    assert!(files.len() >= 100, "only {} samples", files.len());
    files
}

/// The samples of the literal texts, and the files that the repository keeps of the others.
fn all_kept_files() -> Vec<Sample> {
    let mut files: Vec<Sample> = samples().into_iter().chain(enums::samples()).collect();
    files.retain(|sample| sample.kept);
    for sample in files.iter_mut().filter(|sample| !sample.typed) {
        let path = topics().join(sample.topic).join(&sample.name);
        let read = |extension| std::fs::read(path.with_extension(extension));
        sample.bytes = read("xnb").expect("a sample: run corpus/make");
        sample.enums = read("enums").unwrap_or_default();
        let rows = read("rows").expect("its rows");
        sample.rows = String::from_utf8(rows).expect("text");
        sample.padding = kept_padding(&path.with_extension("padding"));
    }
    files.sort_by(|one, other| one.name.cmp(&other.name));
    files
}

/// The number in the file that keeps a sample's padding, 0 without that file.
fn kept_padding(path: &Path) -> usize {
    match std::fs::read_to_string(path) {
        Ok(line) => line.trim_end().parse().expect("a number"),
        Err(_) => 0,
    }
}

/// The kept files that have padded numbers, and the kept file that each is without them.
const PADDED: &[(&str, &str)] = &[
    ("ok-every-number-in-2-bytes", "ok-every-number-in-1-byte"),
    ("ok-every-number-in-3-bytes", "ok-every-number-in-1-byte"),
    ("ok-every-number-in-4-bytes", "ok-every-number-in-1-byte"),
    ("ok-every-number-in-5-bytes", "ok-every-number-in-1-byte"),
    ("ok-gauge-with-numbers-in-3-bytes", "ok-gauge"),
    ("ok-padded-reader-count-of-0", "ok-kind-00-null"),
    ("ok-padded-reader-count-of-1", "ok-kind-13-string"),
    ("ok-padded-name-length", "ok-kind-13-string"),
    ("ok-padded-second-name-length", "ok-argument-string"),
    ("ok-padded-name-length-of-1024", "ok-name-of-1024-bytes"),
    ("ok-padded-shared-count-of-0", "ok-kind-00-null"),
    ("ok-padded-shared-count-of-1", "ok-resource-id-1-of-1"),
    ("ok-padded-type-id-of-an-element", "ok-argument-string"),
    ("ok-padded-null-as-an-element", "ok-argument-string"),
    ("ok-padded-null-as-a-field", "ok-resource-id-1-of-1"),
    ("ok-padded-null-as-a-shared-object", "ok-resource-id-1-of-1"),
    (
        "ok-padded-type-id-of-a-shared-object",
        "ok-page-reference-to-page",
    ),
    ("ok-padded-picture-reference", "ok-resource-id-1-of-1"),
    ("ok-padded-page-reference", "ok-resource-id-1-of-1"),
    ("ok-padded-null-reference", "ok-page-reference-to-page"),
    ("ok-padded-text-count", "ok-kind-13-string"),
    ("ok-padded-text-count-of-128", "ok-text-of-128-bytes"),
    ("ok-padded-text-count-of-0", "ok-text-of-0-bytes"),
    ("ok-padded-reader-count-and-text-count", "ok-kind-13-string"),
    ("ok-text-count-in-2-bytes", "ok-kind-13-string"),
    ("ok-texts-padded", "ok-texts-entities"),
    ("ok-type-id-0-in-2-bytes", "ok-kind-00-null"),
    ("ok-type-id-0-in-3-bytes", "ok-kind-00-null"),
    ("ok-type-id-0-in-4-bytes", "ok-kind-00-null"),
    ("ok-type-id-0-in-5-bytes", "ok-kind-00-null"),
    ("ok-type-id-1-in-2-bytes", "ok-kind-01-byte"),
    ("ok-type-id-1-in-3-bytes", "ok-kind-01-byte"),
    ("ok-type-id-1-in-4-bytes", "ok-kind-01-byte"),
    ("ok-type-id-1-in-5-bytes", "ok-kind-01-byte"),
];

/// What `shorten` must write for one of the kept files: its refusal, or the file without padded numbers.
pub fn shortest(file: &Sample, files: &[Sample]) -> Vec<u8> {
    if file.rows.starts_with("refused ") {
        return file.rows.clone().into_bytes();
    }
    let padded = PADDED.iter().find(|(name, _)| *name == file.name);
    let name = padded.map_or(file.name.as_str(), |(_, shortest)| shortest);
    let found = files.iter().find(|other| other.name == name);
    found.expect("a kept file").bytes.clone()
}
