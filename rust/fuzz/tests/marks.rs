//! Conversions by the second program over generated packs.

use corpus::packs::{write_pack, NO_MARK};
use fuzz::packs::lookups::some_paths;
use fuzz::packs::{case, some_files, PackKnown};
use fuzz::random::Random;
use second::marks::{mark, unmark, MARK};
use second::{pack, Refusal};
use std::collections::BTreeMap;

const PACKS: u64 = 6_000;

type Conversion = fn(&[u8], &mut [u8]) -> Result<usize, Refusal>;

/// The output of a conversion that is lent just enough bytes; one byte less is refused.
fn converted(convert: Conversion, pack: &[u8]) -> Vec<u8> {
    let refusal = convert(pack, &mut []).expect_err("no pack has no byte");
    assert_eq!(refusal.number, 21);
    let needed = refusal.place;
    let mut less = vec![0xEE; needed - 1];
    assert_eq!(convert(pack, &mut less), Err(refusal));
    assert!(less.iter().all(|&byte| byte == 0xEE));
    let mut out = vec![0xEE; needed];
    assert_eq!(convert(pack, &mut out), Ok(needed));
    out
}

/// The writer knows both forms of the same files.
#[test]
fn conversions_give_the_other_form() {
    for seed in 0..PACKS {
        let mut random = Random::new(seed);
        let files = some_files(&mut random);
        let plain = write_pack(NO_MARK, &files);
        let marked = write_pack(&MARK, &files);
        assert!(converted(mark, &plain.bytes) == marked.bytes, "seed {seed}");
        assert!(
            converted(unmark, &marked.bytes) == plain.bytes,
            "seed {seed}"
        );
        let paths: Vec<Vec<u8>> = files.iter().map(|file| file.path.clone()).collect();
        for path in some_paths(&mut random, &paths, 3) {
            let data = pack::find(&plain.bytes, &plain.table(), &path);
            let marked_data = pack::find(&marked.bytes, &marked.table(), &path);
            assert_eq!(data, marked_data, "seed {seed}: {path:?}");
        }
    }
}

/// A conversion refuses what the reader of that form refuses with room enough, and never 31.
#[test]
fn refusals_are_the_readers() {
    let forms: [(&[u8], Conversion); 2] = [(NO_MARK, mark), (&MARK, unmark)];
    for (form, convert) in forms {
        let mut counts = BTreeMap::new();
        for seed in 0..PACKS {
            let case = case(form, seed);
            let mut table = vec![0; 4 * 4096];
            let read = pack::marked_read(&case.bytes, form, &mut table);
            let length = case.bytes.len() + 3 * 4096;
            let mut out = vec![0xEE; length];
            let answer = convert(&case.bytes, &mut out);
            match (&case.known, answer) {
                (Some(PackKnown::Refused { number, place }), Err(refusal)) if *number != 31 => {
                    assert_eq!((refusal.number, refusal.place), (*number, *place));
                }
                _ => assert_eq!(answer.err(), read.err(), "seed {seed}"),
            }
            if answer.is_err() {
                assert!(out.iter().all(|&byte| byte == 0xEE), "seed {seed}");
            }
            let number = answer.map_or_else(|refusal| refusal.number, |_| 0);
            *counts.entry(number).or_insert(0) += 1;
        }
        println!("{counts:?}");
        let common = [0, 1, 8, 9, 15, 20].iter();
        let marks: &[u32] = if form.is_empty() { &[] } else { &[51] };
        for number in common.chain(marks) {
            let count = counts.get(number).copied().unwrap_or(0);
            assert!(count >= 50, "refusal {number} occurs {count} times");
        }
        assert!(!counts.contains_key(&31));
    }
}
