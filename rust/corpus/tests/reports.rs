//! Reports: every refusal stands in a sample.

use corpus::reports::kept_samples;
use std::collections::BTreeSet;

#[test]
fn every_refusal_of_a_report_stands_in_a_sample() {
    let answers = kept_samples().into_iter().map(|it| it.expected().answer);
    let numbers: BTreeSet<u32> = answers
        .filter_map(|answer| answer.err())
        .map(|it| it.0)
        .collect();
    assert_eq!(numbers, BTreeSet::from([31, 71, 72]));
}
