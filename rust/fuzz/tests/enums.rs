//! Req 02 over generated files: the second program with lists of enum types lent.

mod known;
mod rewritten;

use fuzz::enums::{case, limits, EnumCase};
use fuzz::Known;
use known::{answer, check};
use rewritten::check_rewrite;
use second::{load, rewrite, Refusal};
use std::collections::BTreeMap;

/// How many files are tried; FUZZ_FILES in the environment asks for another number.
fn files() -> u64 {
    let asked = std::env::var("FUZZ_FILES").ok();
    asked.and_then(|it| it.parse().ok()).unwrap_or(30_000)
}

/// Compares a load and a rewrite with what is known, and gives the refusal's number or 0.
fn check_case(name: &str, EnumCase { case, enums }: &EnumCase) -> u32 {
    let answer = check(name, case, enums);
    let saved = check_rewrite(name, case, enums);
    assert_eq!(saved, answer.ok().map(|loaded| loaded.padding), "{name}");
    answer.map_or_else(|refusal| refusal.number, |_| 0)
}

#[test]
fn generated_files_give_what_is_known_and_every_refusal() {
    // How often each refusal number occurs, 0 for acceptance.
    let mut all = BTreeMap::new();
    let mut unknown = BTreeMap::new();
    for seed in 0..files() {
        let case = case(seed);
        let number = check_case(&format!("seed {seed}"), &case);
        *all.entry(number).or_insert(0) += 1;
        if case.case.known.is_none() {
            *unknown.entry(number).or_insert(0) += 1;
        }
    }
    println!("all: {all:?}");
    println!("damaged at random: {unknown:?}");
    for (number, count) in &all {
        assert!(*count >= 20, "refusal {number} occurs {count} times");
    }
    for number in (1..=20).chain([22, 32]).filter(|number| *number != 10) {
        assert!(all.contains_key(&number), "refusal {number} does not occur");
    }
    assert!(all[&32] > 3_000 && all[&11] > 500 && all[&14] > 300);
}

#[test]
fn limits_give_what_is_known() {
    let limits = limits();
    assert!(limits.len() > 2_000, "only {} limits", limits.len());
    for limit in limits {
        assert!(limit.case.case.known.is_some(), "{}", limit.name);
        check_case(&limit.name, &limit.case);
    }
}

/// Every size stands in every place: as an object, an element, a nullable's value, a key and a value.
#[test]
fn every_size_stands_in_every_place() {
    let mut places = BTreeMap::new();
    for seed in 0..files() {
        let EnumCase { case, .. } = case(seed);
        let Some(Known::Accepted { rows, .. }) = case.known else {
            continue;
        };
        for (number, row) in rows.iter().enumerate().filter(|(_, row)| row[0] == 15) {
            let owner = row[4].checked_sub(1).map(|owner| rows[owner as usize]);
            let id_bytes = u32::from(row[5] > 0);
            let place = match owner {
                _ if id_bytes > 0 => "object",
                Some([16, ..]) => "nullable",
                Some([17, ..]) => "array",
                Some([18, ..]) => "list",
                Some([19, ..]) if rows[number - 1] == owner.expect("an owner") => "first key",
                Some([19, ..]) => "other key or value",
                owner => panic!("an enum below {owner:?}"),
            };
            // A type id may be padded.
            let size = if id_bytes > 0 { 0 } else { row[2] };
            *places.entry((place, size)).or_insert(0) += 1;
        }
    }
    println!("{places:?}");
    // Five places with four sizes each, and objects.
    assert_eq!(places.len(), 5 * 4 + 1);
    for (place, count) in places {
        assert!(count >= 50, "{place:?} occurs {count} times");
    }
}

/// One file is accepted under one list and refused, or read otherwise, under another.
#[test]
fn the_same_file_under_another_list() {
    let mut changed = BTreeMap::new();
    for seed in 0..files() / 4 {
        let EnumCase { case, enums } = case(seed);
        let (with_list, words) = answer(&case, &enums);
        let (without, other_words) = answer(&case, &[]);
        let what = match (with_list, without) {
            (Ok(_), Ok(_)) if words == other_words => "accepted with the same rows",
            (Ok(_), Ok(_)) => "accepted with other rows",
            (Ok(_), Err(refusal)) if refusal.number == 11 => "11 without the list",
            (Ok(_), Err(_)) => "refused without the list",
            (Err(_), Ok(_)) => "accepted without the list",
            (Err(_), Err(_)) => "refused",
        };
        *changed.entry(what).or_insert(0) += 1;
    }
    println!("{changed:?}");
    assert!(changed["11 without the list"] > 500);
    assert!(changed["refused without the list"] > 50);
    assert!(changed["accepted without the list"] > 100);
}

/// 32 comes before 19 and 21, and after it words are zero and the output is untouched.
#[test]
fn a_refused_list_comes_before_words_and_output() {
    let mut refused = 0;
    for seed in 0..files() / 4 {
        let EnumCase { case, enums } = case(seed);
        let Some(Known::Refused { number: 32, place }) = case.known else {
            continue;
        };
        let refusal = Refusal { number: 32, place };
        for count in [0, 6, 7, 100] {
            let mut words = vec![7; count];
            assert_eq!(load(&case.bytes, &enums, &mut words), Err(refusal));
            assert_eq!(words, vec![0; count]);
            let (mut words, mut out) = (vec![7; count], [0xEE; 12]);
            let answer = rewrite(&case.bytes, &enums, &mut words, &mut out);
            assert_eq!(answer, Err(refusal), "seed {seed}");
            assert_eq!((words, out), (vec![0; count], [0xEE; 12]));
        }
        refused += 1;
    }
    assert!(refused > 500, "only {refused}");
}

#[test]
fn equal_seeds_give_equal_cases() {
    for seed in 0..100 {
        let (one, other) = (case(seed), case(seed));
        assert_eq!(one.enums, other.enums);
        assert_eq!(one.case.bytes, other.case.bytes);
        assert_eq!(one.case.known, other.case.known);
    }
}
