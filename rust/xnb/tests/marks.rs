//! Marked packs and conversions: the static library against the second program, every word and byte compared.

mod lent;

use corpus::packs::marked::MARKED;
use corpus::packs::{write_pack, NO_MARK};
use fuzz::packs::{case, limits, some_files, PackCase};
use fuzz::random::Random;
use lent::Lent;
use std::collections::BTreeMap;
use xnb::raw::marks as raw;

/// How many packs of each form are tried; FUZZ_PACKS in the environment asks for another number.
fn packs() -> u64 {
    let asked = std::env::var("FUZZ_PACKS").ok();
    asked.and_then(|it| it.parse().ok()).unwrap_or(12_000)
}

type Answer = Result<usize, second::Refusal>;
type Linked = fn(&[u8], &mut [u8]) -> (u32, u64);
type Second = fn(&[u8], &mut [u8]) -> Answer;

/// An answer in the form that the library gives it.
fn numbers(answer: Answer) -> (u32, u64) {
    match answer {
        Ok(number) => (0, number as u64),
        Err(refusal) => (refusal.number, refusal.place as u64),
    }
}

/// How often each refusal number was given, 0 for acceptance.
type Counts = BTreeMap<u32, u64>;

/// Reads a marked pack with so many words lent.
fn read(random: &mut Random, counts: &mut Counts, name: &str, pack: &[u8], words: usize) {
    let mut linked = Lent::new(random.number(), words);
    let mut table = vec![random.number(); words];
    let answer = raw::read(pack, linked.middle());
    let expected = numbers(second::marks::marked_read(pack, &mut table));
    assert_eq!(answer, expected, "{name}: read with {words} words");
    linked.check(name, &table);
    *counts.entry(answer.0).or_insert(0) += 1;
}

/// Converts to an output of so many bytes; answers the bytes needed, unless the pack is refused.
fn convert(
    (linked, second): (Linked, Second),
    random: &mut Random,
    counts: &mut Counts,
    (name, pack, bytes): (&str, &[u8], usize),
) -> Option<usize> {
    let garbage = random.byte();
    let mut linked_out = Lent::new(garbage, bytes);
    let mut second_out = vec![garbage; bytes];
    let answer = linked(pack, linked_out.middle());
    let expected = numbers(second(pack, &mut second_out));
    assert_eq!(answer, expected, "{name}: to {bytes} bytes");
    linked_out.check(name, &second_out);
    *counts.entry(answer.0).or_insert(0) += 1;
    matches!(answer.0, 0 | 21).then_some(answer.1 as usize)
}

/// Both conversions of a pack, to outputs of any length, of just the length needed and around it.
fn conversions(random: &mut Random, counts: &mut [Counts; 2], name: &str, pack: &[u8]) {
    let calls: [(Linked, Second); 2] = [
        (raw::mark, second::marks::mark),
        (raw::unmark, second::marks::unmark),
    ];
    for (call, counts) in calls.into_iter().zip(counts) {
        let any = random.below(pack.len() + 40);
        let needed = convert(call, random, counts, (name, pack, any));
        if let Some(needed) = needed {
            let less = random.below(needed);
            for bytes in [needed, needed - 1, needed + 9, less] {
                convert(call, random, counts, (name, pack, bytes));
            }
        }
    }
}

/// Every answer that a call can give has occurred often.
fn check(call: &str, counts: &Counts, numbers: &[u32]) {
    for number in numbers {
        let count = counts.get(number).copied().unwrap_or(0);
        assert!(count >= 50, "{call} gives {number} {count} times");
    }
}

/// Each case as a marked pack, and as a pack to be marked and to be unmarked; answers the counts of each.
fn compare(cases: impl Iterator<Item = (String, PackCase)>) -> [Counts; 3] {
    let mut random = Random::new(5);
    let (mut reads, mut converted) = (Counts::new(), [Counts::new(), Counts::new()]);
    for (name, case) in cases {
        let pack = &case.bytes;
        let fewer = random.below(case.words + 1);
        for words in [case.words, fewer] {
            read(&mut random, &mut reads, &name, pack, words);
        }
        conversions(&mut random, &mut converted, &name, pack);
    }
    let [marked, unmarked] = converted;
    println!("read {reads:?}\nmark {marked:?}\nunmark {unmarked:?}");
    [reads, marked, unmarked]
}

#[test]
fn generated_packs_give_the_second_programs_answers() {
    let marks = [NO_MARK, MARKED.mark];
    let seeds = (0..packs()).flat_map(|seed| marks.map(|mark| (mark, seed)));
    let named = |(mark, seed)| (format!("seed {seed} with {mark:?}"), case(mark, seed));
    let [reads, marked, unmarked] = compare(seeds.map(named));
    if packs() >= 10_000 {
        check("read", &reads, &[0, 1, 8, 9, 15, 20, 31, 51]);
        check("mark", &marked, &[0, 1, 8, 9, 15, 20, 21]);
        check("unmark", &unmarked, &[0, 1, 8, 9, 15, 20, 21, 51]);
    }
}

#[test]
fn limits_give_the_second_programs_answers() {
    let marks = [NO_MARK, MARKED.mark];
    let limits = marks.into_iter().flat_map(limits::cases);
    let named: Vec<(String, PackCase)> = limits.map(|limit| (limit.name, limit.case)).collect();
    // Rooms differ from turn to turn.
    let turns = (0..3).flat_map(|_| named.clone());
    let [reads, ..] = compare(turns);
    assert!(reads[&0] > 100 && reads[&51] > 100);
}

/// The writer knows both forms of the same files.
#[test]
fn both_ways_round_give_the_original_bytes() {
    for seed in 0..500 {
        let files = some_files(&mut Random::new(seed));
        let plain = write_pack(NO_MARK, &files).bytes;
        let marked = write_pack(MARKED.mark, &files).bytes;
        let mut out = vec![0xEE; marked.len() + 1];
        assert_eq!(raw::mark(&plain, &mut out), (0, marked.len() as u64));
        assert!(out[..marked.len()] == marked && out[marked.len()] == 0xEE);
        let mut out = vec![0xEE; plain.len() + 1];
        assert_eq!(raw::unmark(&marked, &mut out), (0, plain.len() as u64));
        assert!(out[..plain.len()] == plain && out[plain.len()] == 0xEE);
    }
}

#[test]
fn corpus_packs_give_their_answers() {
    for sample in corpus::packs::folder::kept_marked_packs() {
        let answers = sample.answers_of(
            |pack, table| match raw::read(pack, table) {
                (0, files) => Ok(files as usize),
                refused => Err(refused),
            },
            |pack, table, path| match xnb::raw::pack::find(pack, table, path) {
                (0, 0, 0) => None,
                (_, first, length) => Some((first, length)),
            },
        );
        assert_eq!(answers, sample.answers, "{}", sample.name);
    }
}
