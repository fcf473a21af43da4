//! Req 06 over generated files: the padding that is reported is the sum of the chosen amounts.

mod known;

use fuzz::padding::{case, limits};
use fuzz::{Case, Known};
use known::check;
use second::{reported_padding, rewrite, Loaded, Refusal};
use std::collections::BTreeMap;

/// How many files are tried; FUZZ_FILES in the environment asks for another number.
fn files() -> u64 {
    let asked = std::env::var("FUZZ_FILES").ok();
    asked.and_then(|it| it.parse().ok()).unwrap_or(30_000)
}

/// "It is proved equal to the file's length less the rewritten file's length"; 0 exactly if nothing is rewritten.
fn check_total(name: &str, case: &Case, answer: Result<Loaded, Refusal>) -> usize {
    let mut words = vec![0; case.words];
    let mut out = vec![0; case.bytes.len()];
    let reported = reported_padding(answer);
    match rewrite(&case.bytes, &[], &mut words, &mut out) {
        Ok(length) => {
            assert_eq!(reported, case.bytes.len() - length, "{name}");
            assert_eq!(reported == 0, out[..length] == case.bytes, "{name}");
        }
        Err(_) => assert_eq!(reported, 0, "{name}"),
    }
    reported
}

#[test]
fn generated_files_report_the_sum_of_their_padding() {
    // How often each refusal number occurs, and how often accepted files have no padding, a little and more.
    let mut answers = BTreeMap::new();
    for seed in 0..files() {
        let case = case(seed);
        let name = format!("seed {seed}");
        let answer = check(&name, &case, &[]);
        let reported = check_total(&name, &case, answer);
        let what = match answer {
            Err(refusal) => format!("refused {}", refusal.number),
            Ok(_) if reported == 0 => "no padding".to_string(),
            Ok(_) if reported <= 4 => "up to four bytes".to_string(),
            Ok(_) => "more".to_string(),
        };
        *answers.entry(what).or_insert(0) += 1;
    }
    println!("{answers:?}");
    assert_eq!(answers.len(), 7);
    for (what, count) in answers {
        assert!(count >= 500, "{what}: {count}");
    }
}

#[test]
fn limits_report_the_sum_of_their_padding() {
    for limit in limits() {
        let answer = check(&limit.name, &limit.case, &[]);
        check_total(&limit.name, &limit.case, answer);
    }
}

#[test]
fn other_cases_have_known_padding_too() {
    let mut padded = 0;
    for seed in 0..files() / 4 {
        let case = fuzz::case(seed);
        if let Some(Known::Accepted { padding, .. }) = case.known {
            padded += usize::from(padding > 0);
        }
    }
    assert!(padded > 500, "only {padded}");
}

#[test]
fn equal_seeds_give_equal_files() {
    for seed in 0..100 {
        let (one, other) = (case(seed), case(seed));
        assert_eq!((one.bytes, one.known), (other.bytes, other.known));
    }
}
