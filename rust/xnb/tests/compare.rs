//! The static library against the second loader, every word of every lent buffer compared.

mod lent;
mod sides;

use corpus::folder::{kept_files, kept_files_with_enums};
use fuzz::enums::{self, EnumCase};
use fuzz::random::Random;
use second::WORDS_PER_ROW;
use sides::{in_shape, lookups, other_words, some_rows, Call, Counts, Sides, SHAPES};
use xnb::Shape;

/// How many files are tried; FUZZ_FILES in the environment asks for another number.
fn files() -> u64 {
    let asked = std::env::var("FUZZ_FILES").ok();
    asked.and_then(|it| it.parse().ok()).unwrap_or(120_000)
}

/// Loads, rewrites and looks up in one file, with words for so many rows and with other numbers.
fn compare(sides: &mut Sides, name: &str, file: &[u8], words: usize) {
    let rows = sides.load(name, file, words).unwrap_or(3);
    let random = &mut sides.random;
    let fewer = random.below(WORDS_PER_ROW * rows + 1);
    let just = WORDS_PER_ROW * rows + random.below(2 * WORDS_PER_ROW);
    for words in [fewer, just] {
        let _ = sides.load(name, file, words);
    }
    if sides.shape == Shape::Rows {
        sides.rewrites(name, file, words);
    }

    let mut by_rows = vec![0; words];
    let _ = second::load(file, &sides.enums, &mut by_rows);
    look_up(sides, name, file, &by_rows, rows);
    by_rows.truncate(WORDS_PER_ROW * rows);
    let other = other_words(&mut sides.random, file, &by_rows);
    look_up(sides, name, file, &other, other.len() / WORDS_PER_ROW);
}

/// Looks up in these words, of which so many rows are used, put into the shape that is compared.
fn look_up(sides: &mut Sides, name: &str, file: &[u8], by_rows: &[u32], used: usize) {
    let numbers = some_rows(&mut sides.random, by_rows.len(), used);
    let words = in_shape(sides.shape, by_rows);
    lookups(sides, name, file, &words, &numbers);
}

/// The cases of the seeds that leave this rest.
fn generated(shape: Shape, rest: u64, threads: u64) -> Counts {
    let mut sides = Sides::new(shape, rest);
    for seed in (rest..files()).step_by(threads as usize) {
        let case = fuzz::case(seed);
        sides.random = Random::new(!seed);
        compare(&mut sides, &format!("seed {seed}"), &case.bytes, case.words);
    }
    sides.counts
}

/// The same with the list of the case lent.
fn compare_listed(sides: &mut Sides, name: &str, EnumCase { case, enums }: EnumCase) {
    sides.enums = enums;
    compare(sides, name, &case.bytes, case.words);
}

/// All generated files, in two threads.
fn compare_generated(shape: Shape) {
    const THREADS: u64 = 2;
    let mut counts = Counts::default();
    std::thread::scope(|scope| {
        let parts = [0, 1].map(|rest| scope.spawn(move || generated(shape, rest, THREADS)));
        for part in parts {
            counts.add(&part.join().expect("no difference"));
        }
    });
    println!("{} files, {shape:?}\n{counts}", files());
    if files() >= 100_000 {
        counts.check(shape);
    }
}

#[test]
fn generated_files_give_the_second_loaders_answers() {
    SHAPES.into_iter().for_each(compare_generated);
}

/// Files whose numbers are padded by chosen amounts.
#[test]
fn padded_files_give_the_second_loaders_answers() {
    for shape in SHAPES {
        let mut sides = Sides::new(shape, 5);
        for seed in 0..files() / 4 {
            let case = fuzz::padding::case(seed);
            compare(&mut sides, &format!("seed {seed}"), &case.bytes, case.words);
        }
        println!("{} files, {shape:?}\n{}", files() / 4, sides.counts);
    }
}

/// Files with lists of enum types, lawful and refused.
#[test]
fn files_with_enums_give_the_second_loaders_answers() {
    for shape in SHAPES {
        let mut sides = Sides::new(shape, 6);
        for seed in 0..files() / 3 {
            compare_listed(&mut sides, &format!("seed {seed}"), enums::case(seed));
        }
        println!("{} files, {shape:?}\n{}", files() / 3, sides.counts);
        if files() >= 100_000 {
            sides.counts.check_with_enums(shape);
        }
    }
}

/// Long lists of nullables, which the library takes at once, with a fault at any of them.
#[test]
fn nullables_give_the_second_loaders_answers() {
    for shape in SHAPES {
        let mut sides = Sides::new(shape, 12);
        for seed in 0..files() / 6 {
            compare_listed(
                &mut sides,
                &format!("seed {seed}"),
                fuzz::nullables::case(seed),
            );
        }
        println!("{} files, {shape:?}\n{}", files() / 6, sides.counts);
        if files() >= 100_000 {
            sides.counts.check_nullables(shape);
        }
    }
}

#[test]
fn limits_of_enums_give_the_second_loaders_answers() {
    for shape in SHAPES {
        let mut sides = Sides::new(shape, 7);
        for limit in enums::limits() {
            compare_listed(&mut sides, &limit.name, limit.case);
        }
        println!("{shape:?}\n{}", sides.counts);
    }
}

#[test]
fn corpus_files_with_enums_give_the_second_loaders_answers() {
    for shape in SHAPES {
        let mut sides = Sides::new(shape, 8);
        for file in kept_files_with_enums() {
            sides.enums = file.enums;
            for words in [0, 6, 7, 100, WORDS_PER_ROW * 1024] {
                compare(&mut sides, &file.name, &file.bytes, words);
            }
        }
        println!("{shape:?}\n{}", sides.counts);
    }
}

/// Each list of the cases with files of other cases, which it does not belong to.
#[test]
fn files_with_other_lists_give_the_second_loaders_answers() {
    for shape in SHAPES {
        let mut sides = Sides::new(shape, 9);
        for seed in 0..files() / 12 {
            sides.enums = enums::case(seed + 1).enums;
            let name = format!("seed {seed}");
            let case = enums::case(seed).case;
            compare(&mut sides, &name, &case.bytes, case.words);
            let case = fuzz::case(seed);
            compare(&mut sides, &name, &case.bytes, case.words);
        }
        println!("{shape:?}\n{}", sides.counts);
    }
}

/// Files with one reader name each, good or bad.
#[test]
fn names_give_the_second_loaders_answers() {
    for shape in SHAPES {
        let mut sides = Sides::new(shape, 6);
        for seed in 0..files() / 2 {
            let case = fuzz::names::case(seed);
            compare(&mut sides, &format!("seed {seed}"), &case.bytes, case.words);
        }
        println!("{} files, {shape:?}\n{}", files() / 2, sides.counts);
        if files() >= 100_000 {
            sides.counts.check_names(shape);
        }
    }
}

/// Files with many meshes.
#[test]
fn meshes_give_the_second_loaders_answers() {
    for shape in SHAPES {
        let mut sides = Sides::new(shape, 10);
        for seed in 0..files() / 3 {
            let case = fuzz::meshes::case(seed);
            compare(&mut sides, &format!("seed {seed}"), &case.bytes, case.words);
        }
        println!("{} files, {shape:?}\n{}", files() / 3, sides.counts);
        if files() >= 100_000 {
            sides.counts.check_meshes(shape);
        }
    }
}

#[test]
fn limits_of_meshes_give_the_second_loaders_answers() {
    for shape in SHAPES {
        let mut sides = Sides::new(shape, 11);
        for limit in fuzz::meshes::limits() {
            compare(&mut sides, &limit.name, &limit.case.bytes, limit.case.words);
        }
        println!("{shape:?}\n{}", sides.counts);
    }
}

#[test]
fn limits_give_the_second_loaders_answers() {
    let limits = fuzz::limits::cases();
    assert!(limits.len() > 500, "only {} limits", limits.len());
    for shape in SHAPES {
        let mut sides = Sides::new(shape, 1);
        for limit in &limits {
            compare(&mut sides, &limit.name, &limit.case.bytes, limit.case.words);
        }
        println!("{} files, {shape:?}\n{}", limits.len(), sides.counts);
    }
}

#[test]
fn corpus_files_give_the_second_loaders_answers() {
    for shape in SHAPES {
        let mut sides = Sides::new(shape, 2);
        for file in kept_files() {
            for words in [0, 6, 7, 100, WORDS_PER_ROW * 1024] {
                compare(&mut sides, &file.name, &file.bytes, words);
            }
        }
        println!("{shape:?}\n{}", sides.counts);
    }
}

/// A table has room for 65,536 rows however many words are lent.
#[test]
fn lookups_stop_at_the_most_rows() {
    let file = [7; 8];
    let row = [3, 1, 4, 0, 0, 0, 1];
    for shape in SHAPES {
        let mut sides = Sides::new(shape, 3);
        for rows in [65_535, 65_536, 65_537, 70_000] {
            let words = in_shape(shape, &row.repeat(rows));
            let around = rows as u32 - 1..rows as u32 + 2;
            let numbers: Vec<u32> = around.chain(65_534..65_538).collect();
            lookups(&mut sides, "many rows", &file, &words, &numbers);
        }
        assert!(sides.counts.of(Call::Part, 0) > 0 && sides.counts.of(Call::Part, 23) > 0);
    }
}

#[test]
fn empty_slices_are_taken() {
    for shape in SHAPES {
        let mut sides = Sides::new(shape, 4);
        for words in [0, 1, WORDS_PER_ROW] {
            compare(&mut sides, "the empty file", &[], words);
            compare(&mut sides, "the empty end of a file", &b"XNB"[3..], words);
        }
        assert_eq!(xnb::raw::part(shape, &[], &[], 0), (23, 0, 0));
        assert_eq!(xnb::raw::next(shape, &[], 0), 0);
    }
    assert_eq!(xnb::raw::load(&[]), 1 << 32);
}
