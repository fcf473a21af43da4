//! The second loader over generated files.

mod known;
mod rewritten;

use fuzz::limits::cases;
use fuzz::{case, Known};
use known::check;
use rewritten::check_rewrite;
use std::collections::BTreeMap;

/// How many files are tried; FUZZ_FILES in the environment asks for another number.
fn files() -> u64 {
    let asked = std::env::var("FUZZ_FILES").ok();
    asked.and_then(|it| it.parse().ok()).unwrap_or(20_000)
}

#[test]
fn limits_give_what_is_known() {
    let limits = cases();
    assert!(limits.len() > 500, "only {} limits", limits.len());
    for limit in limits {
        let _ = check(&limit.name, &limit.case, &[]);
    }
}

#[test]
fn equal_seeds_give_equal_files() {
    for seed in 0..100 {
        assert_eq!(case(seed).bytes, case(seed).bytes);
    }
}

#[test]
fn generated_files_give_what_is_known_and_every_refusal() {
    // How often each refusal number occurs, 0 for acceptance.
    let mut all = BTreeMap::new();
    let mut unknown = BTreeMap::new();
    for seed in 0..files() {
        let case = case(seed);
        let answer = check(&format!("seed {seed}"), &case, &[]);
        let number = answer.map_or_else(|refusal| refusal.number, |_| 0);
        *all.entry(number).or_insert(0) += 1;
        if case.known.is_none() {
            *unknown.entry(number).or_insert(0) += 1;
        }
    }
    println!("all: {all:?}");
    println!("damaged at random: {unknown:?}");
    for number in (0..=22).chain(33..=38).filter(|it| ![10, 21].contains(it)) {
        let count = all.get(&number).copied().unwrap_or(0);
        assert!(count >= 20, "refusal {number} occurs {count} times");
    }
}

/// Every kind stands in many lawful files.
#[test]
fn every_kind_occurs() {
    let mut kinds = BTreeMap::new();
    for seed in 0..files() / 4 {
        if let Some(Known::Accepted { rows, .. }) = case(seed).known {
            for row in rows {
                *kinds.entry(row[0]).or_insert(0) += 1;
            }
        }
    }
    println!("{kinds:?}");
    for kind in (0..=42).filter(|kind| *kind != 14 && *kind != 31) {
        let count = kinds.get(&kind).copied().unwrap_or(0);
        assert!(count >= 20, "kind {kind} occurs {count} times");
    }
}

#[test]
fn rewriting_keeps_rows_but_for_places_and_lengths() {
    let mut accepted = 0;
    let mut shorter = 0;
    for seed in 0..files() {
        let saved = check_rewrite(&format!("seed {seed}"), &case(seed), &[]);
        accepted += usize::from(saved.is_some());
        shorter += usize::from(saved > Some(0));
    }
    println!("{accepted} files rewritten, {shorter} of them shorter");
    assert!(accepted > 1000 && shorter > 500);
}
