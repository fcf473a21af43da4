//! The second program over generated packs.

use corpus::packs::write_pack;
use fuzz::packs::lookups::{other_table, some_paths};
use fuzz::packs::{case, limits, some_files, PackCase, PackKnown};
use fuzz::random::Random;
use second::pack::{find, marked_read, read};
use second::Refusal;
use std::collections::BTreeMap;
use std::ops::Range;

const NO_MARK: &[u8] = &[];
const MARK: &[u8] = &[0xFD, 0xFE];

/// How many packs are tried; FUZZ_PACKS in the environment asks for another number.
fn packs() -> u64 {
    let asked = std::env::var("FUZZ_PACKS").ok();
    asked.and_then(|it| it.parse().ok()).unwrap_or(10_000)
}

/// Compares an answer with what is known of the case, and gives the refusal's number or 0.
fn check(name: &str, mark: &[u8], case: &PackCase) -> u32 {
    let mut table = vec![0xAAAA_AAAA_AAAA_AAAA; case.words];
    let answer = marked_read(&case.bytes, mark, &mut table);
    match &case.known {
        Some(PackKnown::Accepted(words)) => {
            assert_eq!(answer, Ok(words.len() / 4), "{name}");
            assert_eq!(table[..words.len()], words[..], "{name}");
        }
        Some(PackKnown::Refused { number, place }) => {
            let (number, place) = (*number, *place);
            assert_eq!(answer, Err(Refusal { number, place }), "{name}");
        }
        None => {}
    }
    let used = answer.map_or(0, |files| 4 * files);
    assert!(table[used..].iter().all(|&word| word == 0), "{name}");
    answer.map_or_else(|refusal| refusal.number, |_| 0)
}

fn limits_give_what_is_known(mark: &[u8]) {
    let limits = limits::cases(mark);
    assert!(limits.len() > 500, "only {} limits", limits.len());
    for limit in limits {
        check(&limit.name, mark, &limit.case);
    }
}

fn generated_packs_give_what_is_known(mark: &[u8], numbers: &[u32]) {
    // How often each refusal number occurs, 0 for acceptance.
    let mut all = BTreeMap::new();
    let mut unknown = BTreeMap::new();
    for seed in 0..packs() {
        let case = case(mark, seed);
        let number = check(&format!("seed {seed}"), mark, &case);
        *all.entry(number).or_insert(0) += 1;
        if case.known.is_none() {
            *unknown.entry(number).or_insert(0) += 1;
        }
    }
    println!("all: {all:?}");
    println!("damaged at random: {unknown:?}");
    for number in numbers {
        let count = all.get(number).copied().unwrap_or(0);
        assert!(count >= 50, "refusal {number} occurs {count} times");
    }
}

#[test]
fn limits_of_packs() {
    limits_give_what_is_known(NO_MARK);
}

#[test]
fn limits_of_marked_packs() {
    limits_give_what_is_known(MARK);
}

#[test]
fn generated_packs() {
    generated_packs_give_what_is_known(NO_MARK, &[0, 1, 8, 9, 15, 20, 31]);
}

#[test]
fn generated_marked_packs() {
    generated_packs_give_what_is_known(MARK, &[0, 1, 8, 9, 15, 20, 31, 51]);
}

#[test]
fn equal_seeds_give_equal_packs() {
    for seed in 0..100 {
        assert_eq!(case(MARK, seed).bytes, case(MARK, seed).bytes);
    }
}

/// Where a part starts and ends.
fn place(part: Option<&[u8]>) -> Option<Range<*const u8>> {
    part.map(|part| part.as_ptr_range())
}

/// The first file of equal path, ASCII letters lowered, is found, and no other.
#[test]
fn lookups_give_what_is_known() {
    let (mut found, mut absent) = (0, 0);
    for seed in 0..packs() / 4 {
        let mut random = Random::new(!seed);
        let files = some_files(&mut random);
        let written = write_pack(NO_MARK, &files);
        let mut first = BTreeMap::new();
        for (number, file) in files.iter().enumerate() {
            first
                .entry(file.path.to_ascii_lowercase())
                .or_insert(number);
        }
        let mut table = vec![1; 4 * files.len()];
        assert_eq!(read(&written.bytes, &mut table), Ok(files.len()));
        let paths: Vec<Vec<u8>> = files.iter().map(|file| file.path.clone()).collect();
        for path in some_paths(&mut random, &paths, 12) {
            let expected = first.get(&path.to_ascii_lowercase());
            let data = find(&written.bytes, &table, &path);
            let expected_data = expected.map(|number| {
                let record = written.places[*number];
                &written.bytes[record.data..record.end]
            });
            assert_eq!(place(data), place(expected_data), "seed {seed}: {path:?}");
            match data {
                Some(_) => found += 1,
                None => absent += 1,
            }
        }
    }
    println!("{found} found, {absent} absent");
    assert!(found > 1000 && absent > 1000);
}

/// In any words, what is found is an entry's, and an earlier entry would have been found before it.
#[test]
fn lookups_in_any_words_hold_to_the_rule() {
    let mut found = 0;
    for seed in 0..packs() / 4 {
        let mut random = Random::new(seed << 32);
        let files = some_files(&mut random);
        let written = write_pack(NO_MARK, &files);
        let pack = &written.bytes;
        let table = other_table(&mut random, pack, &written.table());
        let paths: Vec<Vec<u8>> = files.iter().map(|file| file.path.clone()).collect();
        for path in some_paths(&mut random, &paths, 12) {
            let matching = table
                .chunks_exact(4)
                .find(|entry| matches(pack, entry, &path));
            let expected = matching.map(|entry| &pack[entry[2] as usize..][..entry[3] as usize]);
            let data = find(pack, &table, &path);
            assert_eq!(
                place(data),
                place(expected),
                "seed {seed}: {path:?} in {table:?}"
            );
            found += data.iter().count();
        }
    }
    println!("{found} found");
    assert!(found > 1000);
}

/// Whether an entry matches, in numbers so wide that no sum overflows.
fn matches(pack: &[u8], entry: &[u64], path: &[u8]) -> bool {
    let wide: Vec<u128> = entry.iter().map(|word| u128::from(*word)).collect();
    let inside = |start: u128, length: u128| start + length <= pack.len() as u128;
    entry[1] != 0
        && inside(wide[0], wide[1])
        && inside(wide[2], wide[3])
        && pack[entry[0] as usize..][..entry[1] as usize].eq_ignore_ascii_case(path)
}
