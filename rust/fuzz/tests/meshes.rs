//! The second loader over generated meshes: Req 05.

mod known;

use fuzz::meshes::{case, limits};
use fuzz::Known;
use known::{answer, check};
use second::{reported_padding, rewrite};
use std::collections::BTreeMap;

/// How many files are tried; FUZZ_FILES in the environment asks for another number.
fn files() -> u64 {
    let asked = std::env::var("FUZZ_FILES").ok();
    asked.and_then(|it| it.parse().ok()).unwrap_or(40_000)
}

#[test]
fn limits_give_what_is_known() {
    let limits = limits();
    assert!(limits.len() > 2500, "only {} limits", limits.len());
    let mut counts = BTreeMap::new();
    for limit in limits {
        let answer = check(&limit.name, &limit.case, &[]);
        let number = answer.map_or_else(|refusal| refusal.number, |_| 0);
        *counts.entry(number).or_insert(0) += 1;
    }
    println!("{counts:?}");
    for number in [0, 1, 9, 15, 16, 17, 18, 19] {
        assert!(counts.contains_key(&number), "no limit gives {number}");
    }
}

#[test]
fn generated_files_give_what_is_known_and_every_refusal() {
    let mut all = BTreeMap::new();
    let mut unknown = BTreeMap::new();
    let mut kinds = BTreeMap::new();
    for seed in 0..files() {
        let case = case(seed);
        let answer = check(&format!("seed {seed}"), &case, &[]);
        let number = answer.map_or_else(|refusal| refusal.number, |_| 0);
        *all.entry(number).or_insert(0) += 1;
        match case.known {
            None => *unknown.entry(number).or_insert(0) += 1,
            Some(Known::Accepted { rows, .. }) => {
                for row in rows {
                    *kinds.entry(row[0]).or_insert(0) += 1;
                }
            }
            Some(Known::Refused { .. }) => {}
        }
    }
    println!("all: {all:?}");
    println!("damaged at random: {unknown:?}");
    println!("kinds: {kinds:?}");
    for number in [0, 1, 8, 13, 14, 15, 16, 17, 18, 19, 20] {
        let count = all.get(&number).copied().unwrap_or(0);
        assert!(count >= 100, "refusal {number} occurs {count} times");
    }
    for kind in 36..=42 {
        let count = kinds.get(&kind).copied().unwrap_or(0);
        assert!(count >= 1000, "kind {kind} occurs {count} times");
    }
}

/// What is rewritten loads to the same rows but for places and lengths, and is as much shorter as the reported padding.
#[test]
fn rewriting_takes_the_padding_out() {
    let mut shorter = 0;
    for seed in 0..files() / 4 {
        let case = case(seed);
        let (loaded, words) = answer(&case, &[]);
        let mut new_words = vec![0x5555_5555; case.words];
        let mut out = vec![0xEE; case.bytes.len()];
        let length = rewrite(&case.bytes, &[], &mut new_words, &mut out);
        let length = match (length, loaded) {
            (Ok(length), Ok(_)) => length,
            (refused, loaded) => {
                assert_eq!(refused.err(), loaded.err(), "seed {seed}");
                continue;
            }
        };
        let padding = reported_padding(loaded);
        assert_eq!(length + padding, case.bytes.len(), "seed {seed}");
        assert_eq!(new_words, words, "seed {seed}");
        shorter += u32::from(padding > 0);
    }
    println!("{shorter} files are shorter");
    assert!(shorter > 200);
}
