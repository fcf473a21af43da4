//! Text lists as XML: every refusal stands in a sample.

use corpus::folder::kept_files;
use corpus::xml::kept_samples;
use std::collections::BTreeSet;

/// The numbers of the refusals in some answers, 0 for an answer that is none.
fn numbers(answers: impl Iterator<Item = Vec<u8>>) -> BTreeSet<u32> {
    let number = |answer: Vec<u8>| {
        let line = String::from_utf8_lossy(&answer).into_owned();
        let refusal = line.strip_prefix("refused ");
        refusal.map_or(0, |rest| {
            let (number, _) = rest.split_once(' ').expect("a place");
            number.parse().expect("a number")
        })
    };
    answers.map(number).collect()
}

/// 9 and 21 depend on sizes that no kept file has.
#[test]
fn every_refusal_stands_in_a_sample() {
    let exports = kept_files().into_iter().filter_map(|file| file.export);
    assert_eq!(numbers(exports), BTreeSet::from([0, 61, 62, 63]));
    let imports = kept_samples().into_iter().map(|sample| sample.answer);
    assert_eq!(numbers(imports), BTreeSet::from([0, 64]));
}

/// "`<?xml version="1.0" encoding="utf-8"?><XnaContent><Asset Type="string[]">`", typed once more.
#[test]
fn every_export_has_the_words_of_the_request() {
    let start = "<?xml version=\"1.0\" encoding=\"utf-8\"?><XnaContent><Asset Type=\"string[]\">";
    let mut exports = 0;
    for file in kept_files() {
        let Some(xml) = file.export.filter(|it| !it.starts_with(b"refused ")) else {
            continue;
        };
        assert!(xml.starts_with(start.as_bytes()), "{}", file.name);
        assert!(xml.ends_with(b"</Asset></XnaContent>"), "{}", file.name);
        exports += 1;
    }
    assert!(exports >= 5, "only {exports}");
}
