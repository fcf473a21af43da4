//! The tuned loader against the second program: rows, rewrites, packs, refusals and the words left.

mod runs;
mod sides;

use corpus::folder::{kept_files, kept_files_with_enums};
use corpus::packs::folder::{kept_marked_packs, kept_packs};
use fuzz::{enums, packs};
use sides::{files, Sides, WORDS_PER_ROW};

#[test]
fn corpus_files_give_the_second_programs_answers() {
    let mut sides = Sides::new(1);
    let all = kept_files().into_iter().chain(kept_files_with_enums());
    for file in all {
        sides.enums = file.enums;
        for words in [0, 6, 7, 100, WORDS_PER_ROW * 1024] {
            sides.compare(&file.name, &file.bytes, words);
        }
    }
    println!("{:?}", sides.loads);
    sides.loads.check([0, 1, 15]);
}

#[test]
fn limits_give_the_second_programs_answers() {
    let mut sides = Sides::new(2);
    let limits = fuzz::limits::cases();
    assert!(limits.len() > 500, "only {} limits", limits.len());
    for limit in limits {
        sides.compare(&limit.name, &limit.case.bytes, limit.case.words);
    }
    for limit in enums::limits() {
        sides.enums = limit.case.enums;
        let case = limit.case.case;
        sides.compare(&limit.name, &case.bytes, case.words);
    }
    println!("{:?}", sides.loads);
    sides.loads.check([0, 1, 9, 11, 12, 14, 15, 19, 20, 32]);
}

#[test]
fn generated_files_give_the_second_programs_answers() {
    let mut sides = Sides::new(3);
    for seed in 0..files() {
        let case = fuzz::case(seed);
        sides.compare(&format!("seed {seed}"), &case.bytes, case.words);
    }
    println!("{:?}\n{:?}", sides.loads, sides.rewrites);
    if files() >= 20_000 {
        let of_a_load = (0..=9).chain(11..=20).chain([22]).chain(33..=38);
        sides.loads.check(of_a_load.clone());
        sides.rewrites.check(of_a_load.chain([21]));
    }
}

/// Padded numbers, reader names and meshes.
#[test]
fn other_generated_files_give_the_second_programs_answers() {
    let makers = [
        ("padding", fuzz::padding::case as fn(u64) -> fuzz::Case),
        ("name", fuzz::names::case),
        ("mesh", fuzz::meshes::case),
    ];
    for (name, make) in makers {
        let mut sides = Sides::new(4);
        for seed in 0..files() / 4 {
            let case = make(seed);
            sides.compare(&format!("{name}, seed {seed}"), &case.bytes, case.words);
        }
        println!("{name}: {:?}", sides.loads);
        sides.loads.check([0]);
    }
}

/// With their own lists of enum types, and with those of other files.
#[test]
fn files_with_enums_give_the_second_programs_answers() {
    let mut sides = Sides::new(5);
    for seed in 0..files() / 4 {
        let made = enums::case(seed);
        let name = format!("enums, seed {seed}");
        for list in [made.enums, enums::case(seed + 1).enums] {
            sides.enums = list;
            sides.compare(&name, &made.case.bytes, made.case.words);
        }
    }
    println!("{:?}", sides.loads);
    sides.loads.check([0, 11, 32]);
}

/// Long lists, which the tuned loader takes at once, with bytes that are wrong, missing or left over.
#[test]
fn long_lists_give_the_second_programs_answers() {
    let mut sides = Sides::new(7);
    sides.enums = corpus::enums::entry(b"Coach.Door", 2);
    for seed in 0..files() {
        let (name, file) = (format!("list, seed {seed}"), runs::case(seed));
        sides.compare(&name, &file, runs::WORDS);
        if let Some(cut) = runs::without_rest(&file, &sides.enums) {
            sides.compare(&name, &cut, runs::WORDS);
        }
    }
    println!("{:?}", sides.loads);
    sides.loads.check([0, 1, 13, 15, 19, 20]);
}

#[test]
fn packs_give_the_second_programs_answers() {
    let mut sides = Sides::new(6);
    for sample in kept_packs().iter().chain(&kept_marked_packs()) {
        sides.compare_pack(&sample.name, &sample.bytes, 4 * 4096);
    }
    for limit in packs::limits::cases(&[]) {
        sides.compare_pack(&limit.name, &limit.case.bytes, limit.case.words);
    }
    for seed in 0..files() / 2 {
        let case = packs::case(&[], seed);
        sides.compare_pack(&format!("seed {seed}"), &case.bytes, case.words);
    }
    println!("{:?}", sides.packs);
    sides.packs.check([0, 1, 8, 9, 15, 20, 31]);
}
