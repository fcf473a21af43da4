//! The samples of packs show every refusal.

use corpus::packs::{marked, samples, PackSample};
use std::collections::BTreeSet;

#[test]
fn every_refusal_of_a_pack_stands_in_a_sample() {
    let common = [1, 8, 9, 15, 20, 31];
    assert_eq!(refusals(samples()), BTreeSet::from(common));
    let of_marks = [1, 9, 20, 31, 51];
    assert_eq!(refusals(marked::samples()), BTreeSet::from(of_marks));
}

/// The numbers that samples are refused with.
fn refusals(samples: Vec<PackSample>) -> BTreeSet<u32> {
    let mut numbers = BTreeSet::new();
    for sample in samples {
        let line = sample.answers.lines().nth(1).expect("an answer");
        if let Some(rest) = line.strip_prefix("refused ") {
            let number = rest.split(' ').next().expect("a number");
            numbers.insert(number.parse::<u32>().expect("a number"));
        }
    }
    numbers
}

#[test]
fn paths_are_found_and_absent() {
    let answers: String = samples().into_iter().map(|it| it.answers).collect();
    let finds = answers.lines().filter(|line| line.starts_with("find "));
    let (absent, found): (Vec<&str>, Vec<&str>) = finds.partition(|it| it.ends_with(": absent"));
    assert!(absent.len() >= 10, "only {} are absent", absent.len());
    assert!(found.len() >= 15, "only {} are found", found.len());
}
