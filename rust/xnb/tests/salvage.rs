//! Salvage of damaged marked packs: the static library against the second program, every word and byte compared.

mod lent;

use corpus::packs::folder::kept_damaged_packs;
use corpus::packs::write_pack;
use fuzz::packs::partition::check_partition;
use fuzz::packs::salvage::{case, cuts, limits, single_damages, SalvageCase, MARK};
use fuzz::packs::some_files;
use fuzz::random::Random;
use lent::Lent;
use std::collections::BTreeMap;
use xnb::salvage::{salvage, salvage_into, Salvaged, Stretch, Written, MOST_STRETCHES};
use xnb::Pack;

/// How many generated packs are tried; FUZZ_PACKS in the environment asks for another number.
fn packs() -> u64 {
    let asked = std::env::var("FUZZ_PACKS").ok();
    asked.and_then(|it| it.parse().ok()).unwrap_or(25_000)
}

/// The refusal or 0, its place or the length, and the number of stretches.
type Answer = (u32, u64, u64);

/// How often each refusal number was given, 0 for acceptance.
type Counts = BTreeMap<u32, u64>;

/// The second program's answer in the form that the library gives it.
fn second(pack: &[u8], out: &mut [u8], list: &mut [u64]) -> Answer {
    match second::salvage::salvage(pack, out, list) {
        Ok(written) => (0, written.length as u64, written.stretches as u64),
        Err(refusal) => (refusal.number, refusal.place as u64, 0),
    }
}

/// Compares a salvage with so many bytes and words lent, all garbage before.
fn compare(
    random: &mut Random,
    counts: &mut Counts,
    (name, pack): (&str, &[u8]),
    (bytes, words): (usize, usize),
) {
    let (byte, word) = (random.byte(), random.number());
    let mut linked_out = Lent::new(byte, bytes);
    let mut linked_list = Lent::new(word, words);
    let (mut out, mut list) = (vec![byte; bytes], vec![word; words]);
    let answer = xnb::raw::salvage::salvage(pack, linked_out.middle(), linked_list.middle());
    let expected = second(pack, &mut out, &mut list);
    assert_eq!(answer, expected, "{name}: {bytes} bytes, {words} words");
    linked_out.check(name, &out);
    linked_list.check(name, &list);
    *counts.entry(answer.0).or_insert(0) += 1;
}

/// Outputs and lists that are too small, just enough and too large.
fn some_rooms(random: &mut Random, needed: usize, stretches: usize) -> Vec<(usize, usize)> {
    let words = 2 * stretches;
    let mut rooms = vec![
        (needed, words),
        (needed + 9, words + 1),
        (needed - 1, words),
        (random.below(needed), words + 5),
        (needed - 1, words.saturating_sub(1)),
    ];
    if stretches > 0 {
        rooms.extend([
            (needed, words - 1),
            (needed + 3, words - 2),
            (needed, random.below(words)),
            (0, 0),
        ]);
    }
    rooms
}

/// What the request says of every salvage, through the safe face.
fn check_whole(name: &str, pack: &[u8], salvaged: &Salvaged) {
    let read = Pack::read_marked(&salvaged.pack).expect(name);
    let words = |stretch: &Stretch| [stretch.start, stretch.length];
    let list: Vec<u64> = salvaged.skipped.iter().flat_map(words).collect();
    check_partition(name, pack, &salvaged.pack, read.words(), &list);
    assert_eq!(salvaged.records(), read.len(), "{name}");
    let reported = salvaged.kept_bytes() as u64 + salvaged.skipped_bytes() + 4;
    assert_eq!(reported, pack.len() as u64, "{name}");

    let again = salvage(&salvaged.pack).expect(name);
    assert!(again.pack == salvaged.pack, "{name}: once more");
    assert_eq!(again.skipped, [], "{name}: once more");

    // An accepted pack comes out byte for byte with nothing skipped.
    if Pack::read_marked(pack).is_ok() {
        assert!(salvaged.pack == pack, "{name}: an accepted pack");
        assert_eq!(salvaged.skipped, [], "{name}: an accepted pack");
    }
}

/// Compares each pack with many rooms, and checks its salvage; answers how often each number was given.
fn compare_all(cases: impl Iterator<Item = (String, Vec<u8>)>) -> Counts {
    let mut random = Random::new(11);
    let mut counts = Counts::new();
    for (name, pack) in cases {
        let named = (&name[..], &pack[..]);
        let any = (random.below(pack.len() + 40), random.below(20));
        compare(&mut random, &mut counts, named, any);
        let Ok(salvaged) = salvage(&pack) else {
            assert!(pack.len() < 4, "{name}: only a shorter pack is refused");
            continue;
        };
        let needed = (salvaged.pack.len(), salvaged.skipped.len());
        for rooms in some_rooms(&mut random, needed.0, needed.1) {
            compare(&mut random, &mut counts, named, rooms);
        }
        check_whole(&name, &pack, &salvaged);
    }
    println!("{counts:?}");
    counts
}

/// The packs of cases, each with a name.
fn named(name: &str, cases: Vec<SalvageCase>) -> impl Iterator<Item = (String, Vec<u8>)> + '_ {
    let numbered = cases.into_iter().enumerate();
    numbered.map(move |(number, case)| (format!("{name} {number}"), case.bytes))
}

#[test]
fn generated_packs_give_the_second_programs_answers() {
    let seeds = 0..packs();
    let counts = compare_all(seeds.map(|seed| (format!("seed {seed}"), case(seed).bytes)));
    for number in [0, 1, 21, 52] {
        let count = counts.get(&number).copied().unwrap_or(0);
        assert!(count >= 50, "{number} is given {count} times");
    }
}

#[test]
fn every_cut_flip_insertion_and_deletion_gives_the_second_programs_answers() {
    let cases = named("cut", cuts()).chain(named("damage", single_damages()));
    let counts = compare_all(cases);
    assert!(counts[&0] > 1000 && counts[&52] > 1000, "{counts:?}");
}

#[test]
fn limits_give_the_second_programs_answers() {
    compare_all(named("limit", limits()));
    let most = limits()
        .into_iter()
        .map(|case| salvage(&case.bytes).expect("long enough"));
    let most = most.map(|it| (it.records(), it.skipped.len()));
    let all: Vec<(usize, usize)> = most.collect();
    let expected = [
        (4095, 0),
        (4095, 4096),
        (4096, 0),
        (4096, MOST_STRETCHES),
        (4096, 1),
        (4096, MOST_STRETCHES),
    ];
    assert_eq!(all, expected);
}

#[test]
fn accepted_packs_and_packs_as_data_give_the_second_programs_answers() {
    let whole = |seed| write_pack(MARK, &some_files(&mut Random::new(seed))).bytes;
    let as_data = |seed| {
        let mut files = some_files(&mut Random::new(seed + 1));
        if let Some(file) = files.last_mut() {
            file.data = whole(seed);
        }
        write_pack(MARK, &files).bytes
    };
    let accepted = (0..400).flat_map(|seed| [whole(seed), as_data(seed)]);
    let named = accepted
        .enumerate()
        .map(|(number, pack)| (format!("pack {number}"), pack));
    compare_all(named);
}

/// Bytes that hold a candidate at nearly every place.
#[test]
fn repeated_starts_of_records_give_the_second_programs_answers() {
    let starts: [&[u8]; 6] = [
        b"\xFD",
        b"\xFD\xFE",
        b"\xFD\xFE\x84\x02",
        b"\xFD\xFE\x01a",
        b"\xFD\xFE\x01a\xFF\xFF\xFF\x7F",
        b"\xFD\xFE\x01a\x03\0\0\0",
    ];
    let lengths = (0..40).chain([270, 300, 1000, 70_000]);
    let cases = lengths.flat_map(|length| {
        starts.map(|start| {
            let bytes: Vec<u8> = start.iter().copied().cycle().take(length).collect();
            (format!("{start:X?} to {length} bytes"), bytes)
        })
    });
    compare_all(cases);
}

#[test]
fn corpus_packs_give_their_answers() {
    for sample in kept_damaged_packs() {
        let words = |stretch: Stretch| [stretch.start, stretch.length];
        let answer = salvage(&sample.bytes)
            .map(|it| (it.pack, it.skipped.into_iter().flat_map(words).collect()))
            .map_err(|it| it.refused().expect("memory is there"))
            .map_err(|it| (it.refusal.number(), it.place));
        assert_eq!(answer, sample.expected(), "{}", sample.name);
    }
}

/// The kept pack of a padded length, with just enough room and with less.
#[test]
fn a_kept_pack_with_just_enough_room() {
    let packs = kept_damaged_packs();
    let found = packs.iter().find(|it| it.name == "salvage-padded-length");
    let pack = &found.expect("it is kept").bytes;
    let answer =
        |bytes, words| xnb::raw::salvage::salvage(pack, &mut vec![0; bytes], &mut vec![0; words]);
    assert_eq!(answer(23, 4), (0, 23, 2));
    assert_eq!(answer(23, 3), (52, 2, 0));
    assert_eq!(answer(22, 3), (21, 23, 0));
}

#[test]
fn refusals_are_reported() {
    let pack = b"\0\0\0\0?\xFD\xFE\x01a\x02\0\0\0hi?";
    let (mut out, mut list) = ([0xEE; 15], [7; 5]);
    let mut reported = |pack: &[u8], bytes, words| {
        let refused = salvage_into(pack, &mut out[..bytes], &mut list[..words]);
        refused.expect_err("too small").to_string()
    };
    let short = "a field runs past the end of the pack, at byte 0";
    assert_eq!(reported(&pack[..3], 0, 0), short);
    let small = "the output is too small for the new pack, which takes 14 bytes";
    assert_eq!(reported(pack, 13, 5), small);
    assert_eq!(reported(pack, 13, 0), small);
    let few = "the list is too short for the skipped stretches, which are 2";
    assert_eq!(reported(pack, 14, 3), few);
    assert_eq!((out, list), ([0xEE; 15], [7; 5]), "unchanged");

    let (length, stretches) = (14, 2);
    let written = salvage_into(pack, &mut out, &mut list);
    assert_eq!(written, Ok(Written { length, stretches }));
    assert_eq!((out[14], list), (0xEE, [4, 1, 15, 1, 7]));
}
