//! The files kept in the repository are those that the program writes, and they show every case.

use corpus::folder;
use corpus::{enums, samples, Sample};
use std::collections::BTreeSet;

fn all() -> Vec<Sample> {
    let mut all = samples();
    all.extend(enums::samples());
    all
}

fn kept() -> Vec<Sample> {
    all().into_iter().filter(|sample| sample.kept).collect()
}

#[test]
fn kept_files_are_up_to_date() {
    let mut expected = BTreeSet::from(["make".to_string(), "values/dotnet-values.txt".to_string()]);
    for file in folder::kept() {
        let name = format!("{}/{}", file.topic, file.name);
        let kept = std::fs::read(folder::topics().join(&name));
        let kept = kept.unwrap_or_else(|_| b"missing".to_vec());
        assert!(kept == file.bytes, "{name}: run corpus/make");
        assert!(expected.insert(name), "two samples have one name");
    }
    let mut found = BTreeSet::new();
    for entry in std::fs::read_dir(folder::topics()).expect("the corpus is there") {
        let entry = entry.expect("a topic");
        let topic = entry.file_name().to_string_lossy().into_owned();
        match std::fs::read_dir(entry.path()) {
            Ok(files) => found.extend(files.map(|file| {
                let name = file.expect("a file").file_name();
                format!("{topic}/{}", name.to_string_lossy())
            })),
            Err(_) => {
                found.insert(topic);
            }
        }
    }
    assert_eq!(found, expected);
}

/// What a literal text has is a file besides only where a page names it.
#[test]
fn few_typed_samples_are_files() {
    let typed = folder::kept().iter().filter(|file| file.typed).count();
    let all = folder::all_files(false);
    let of_texts = all.iter().filter(|file| file.typed).count();
    assert!(typed < 100 && of_texts > 1000, "{typed} of {of_texts}");
}

/// Tests run programs in the folder of all samples, where their files lie beside each other.
#[test]
fn files_of_all_samples_have_names_of_their_own() {
    let files = folder::all_files(true);
    let names: BTreeSet<&str> = files.iter().map(|file| file.name.as_str()).collect();
    assert_eq!(names.len(), files.len());
}

#[test]
fn names_of_samples_differ() {
    let names: BTreeSet<String> = all().into_iter().map(|sample| sample.name).collect();
    assert_eq!(names.len(), all().len());
}

#[test]
fn every_kind_stands_in_a_kept_file() {
    let mut kinds = BTreeSet::new();
    for sample in kept() {
        for line in sample.rows.lines().skip(1) {
            let kind = line.split(' ').nth(1).expect("a kind");
            kinds.insert(kind.parse::<u32>().expect("a number"));
        }
    }
    let lawful = |kind: &u32| *kind != 14 && *kind != 31;
    assert_eq!(kinds, (0..=42).filter(lawful).collect());
}

#[test]
fn every_refusal_of_a_load_stands_in_a_kept_file() {
    let mut numbers = BTreeSet::new();
    for sample in kept() {
        if let Some(rest) = sample.rows.strip_prefix("refused ") {
            let number = rest.split(' ').next().expect("a number");
            numbers.insert(number.parse::<u32>().expect("a number"));
        }
    }
    // 33 to 38 stand for 10, and 21 is the rewriter's.
    let of_a_load = |number: &u32| *number != 10 && *number != 21;
    let expected = (1..=22).chain(32..=38).filter(of_a_load);
    assert_eq!(numbers, expected.collect());
}

#[test]
fn the_corpus_is_small() {
    let bytes: usize = kept()
        .iter()
        .map(|sample| sample.bytes.len() + sample.rows.len())
        .sum();
    assert!(bytes < 1_000_000, "{bytes} bytes");
}
