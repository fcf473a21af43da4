//! Req 07: loads for the driver's screen of the static library against the second program, every word compared.

mod lent;

use corpus::folder::{kept_files, kept_files_with_enums};
use fuzz::driver::{case, limits, OFFENCES};
use fuzz::random::Random;
use lent::Lent;
use second::{driver, Refusal, WORDS_PER_ROW};
use std::collections::BTreeMap;
use xnb::raw::{self, LoadAnswer};
use xnb::{Loader, Refused, Shape};

/// How many files are tried; FUZZ_FILES in the environment asks for another number.
fn files() -> u64 {
    let asked = std::env::var("FUZZ_FILES").ok();
    asked.and_then(|it| it.parse().ok()).unwrap_or(60_000)
}

/// How often each refusal number was given, 0 for none.
type Counts = BTreeMap<u32, u64>;

/// The second program's answer in the form that the library gives it: three zeros after every refusal.
fn answer(answer: Result<second::Loaded, Refusal>) -> LoadAnswer {
    match answer {
        Ok(loaded) => LoadAnswer {
            packed: loaded.rows as u64,
            readers: loaded.readers as u32,
            shared: loaded.shared as u32,
            padding: loaded.padding as u32,
        },
        Err(refusal) => LoadAnswer {
            packed: (u64::from(refusal.number) << 32) + refusal.place as u64,
            readers: 0,
            shared: 0,
            padding: 0,
        },
    }
}

/// Compares a load with so many words lent, all garbage before; answers the rows, if it passes.
fn compare_with(
    random: &mut Random,
    counts: &mut Counts,
    (name, file, enums): (&str, &[u8], &[u8]),
    words: usize,
) -> Result<usize, Refusal> {
    let garbage = random.number() as u32;
    let mut linked = Lent::new(garbage, words);
    let mut second_words = vec![!garbage; words];
    let reported = format!("{name} with {words} words");
    let expected = driver::load(file, enums, &mut second_words);
    let linked_answer = raw::load_driver(file, enums, linked.middle());
    assert_eq!(linked_answer, answer(expected), "{reported}");
    linked.check(&reported, &second_words);
    let number = expected.map_or_else(|refusal| refusal.number, |_| 0);
    *counts.entry(number).or_default() += 1;
    expected.map(|loaded| loaded.rows)
}

/// Compares loads with the words given, with just enough, one less, fewer and more; and the plain load beside them.
fn compare(
    random: &mut Random,
    counts: &mut Counts,
    (name, file, enums): (&str, &[u8], &[u8]),
    words: usize,
) {
    let of = (name, file, enums);
    let answer = compare_with(random, counts, of, words);
    let mut plain = vec![0; words];
    let plain_answer = raw::load_table(Shape::Rows, file, enums, &mut plain);
    let fewer = random.below(words + 1);
    let _ = compare_with(random, counts, of, fewer);
    match answer {
        Ok(rows) => {
            // "Its rows are then the plain loader's."
            let mut lent = vec![0xAAAA_AAAA; words];
            assert_eq!(
                raw::load_driver(file, enums, &mut lent),
                plain_answer,
                "{name}"
            );
            assert!(lent == plain, "{name}: other rows");
            let just = WORDS_PER_ROW * rows;
            for words in [just, just - 1, just + 3] {
                let _ = compare_with(random, counts, of, words);
            }
        }
        Err(refusal) if OFFENCES.contains(&refusal.number) => {
            assert_eq!(plain_answer.packed >> 32, 0, "{name}");
            check_explained(of, refusal);
        }
        Err(refusal) => {
            let packed = (u64::from(refusal.number) << 32) + refusal.place as u64;
            assert_eq!(plain_answer.packed, packed, "{name}");
        }
    }
}

/// The safe face gives the same refusal, and says what is meant.
fn check_explained((name, file, enums): (&str, &[u8], &[u8]), expected: Refusal) {
    let loader = Loader::new().with_enum_bytes(enums);
    let refused = loader.load_driver(file).expect_err(name);
    let Refused { refusal, place } = refused;
    let reported = (refusal.number(), place as usize);
    assert_eq!(reported, (expected.number, expected.place), "{name}");
    let explained = loader.explain(file, refused, xnb::MOST_ROWS).expect(name);
    assert_eq!(
        explained.reader.is_some(),
        matches!(refusal.number(), 43 | 44),
        "{name}"
    );
    if let Some(reader) = explained.reader {
        assert_eq!(reader.first, place as usize, "{name}");
    }
}

#[test]
fn generated_files_give_the_second_programs_answers() {
    let (mut random, mut counts) = (Random::new(7), Counts::new());
    for seed in 0..files() {
        let it = case(seed);
        let name = format!("seed {seed}");
        let of = (&name[..], &it.case.bytes[..], &it.enums[..]);
        compare(&mut random, &mut counts, of, it.case.words);
    }
    println!("{counts:?}");
    for number in [0, 1, 11, 19, 20, 32].into_iter().chain(OFFENCES) {
        let count = counts.get(&number).copied().unwrap_or(0);
        assert!(count >= 50, "{number} is given {count} times");
    }
}

/// Files of all kinds, of which few pass.
#[test]
fn other_generated_files_give_the_second_programs_answers() {
    let (mut random, mut counts) = (Random::new(8), Counts::new());
    for seed in 0..files() / 3 {
        let (name, plain) = (format!("seed {seed}"), fuzz::case(seed));
        compare(
            &mut random,
            &mut counts,
            (&name, &plain.bytes, &[]),
            plain.words,
        );
        let listed = fuzz::enums::case(seed);
        let of = (&name[..], &listed.case.bytes[..], &listed.enums[..]);
        compare(&mut random, &mut counts, of, listed.case.words);
        let mesh = fuzz::meshes::case(seed);
        compare(
            &mut random,
            &mut counts,
            (&name, &mesh.bytes, &[]),
            mesh.words,
        );
    }
    println!("{counts:?}");
    for number in (1..=9)
        .chain(11..=20)
        .chain([22])
        .chain(32..=38)
        .chain([41, 42, 43, 46])
    {
        let count = counts.get(&number).copied().unwrap_or(0);
        assert!(count >= 50, "{number} is given {count} times");
    }
}

#[test]
fn limits_give_the_second_programs_answers() {
    let (mut random, mut counts) = (Random::new(9), Counts::new());
    for limit in limits() {
        let of = (
            &limit.name[..],
            &limit.case.case.bytes[..],
            &limit.case.enums[..],
        );
        compare(&mut random, &mut counts, of, limit.case.case.words);
    }
    for limit in fuzz::limits::cases() {
        let of = (&limit.name[..], &limit.case.bytes[..], &[][..]);
        compare(&mut random, &mut counts, of, limit.case.words);
    }
    println!("{counts:?}");
}

#[test]
fn corpus_files_give_their_answers() {
    let (mut random, mut counts) = (Random::new(10), Counts::new());
    let mut kept = 0;
    for file in kept_files().into_iter().chain(kept_files_with_enums()) {
        for words in [0, 7, 100, WORDS_PER_ROW * 1024] {
            let of = (&file.name[..], &file.bytes[..], &file.enums[..]);
            compare(&mut random, &mut counts, of, words);
        }
        let Some(driver) = file.driver else {
            continue;
        };
        let loader = Loader::new().with_enum_bytes(&file.enums);
        let reported = match loader.load_driver(&file.bytes) {
            Ok(_) => "passed\n".to_string(),
            Err(Refused { refusal, place }) => {
                format!("refused {} at {place}\n", refusal.number())
            }
        };
        assert_eq!(reported, driver, "{}", file.name);
        kept += 1;
    }
    println!("{counts:?}");
    assert!(kept >= 15, "only {kept} answers");
}

/// What is found at each refusal of the kept files.
#[test]
fn refusals_are_reported_in_words() {
    let reported = |name: &str| {
        let files = kept_files().into_iter().chain(kept_files_with_enums());
        let file = files.into_iter().find(|it| it.name == name);
        let file = file.unwrap_or_else(|| panic!("{name} is kept"));
        let loader = Loader::new().with_enum_bytes(&file.enums);
        let refused = loader.load_driver(&file.bytes).expect_err(name);
        let explained = loader.explain(&file.bytes, refused, xnb::MOST_ROWS);
        explained.expect(name).found
    };
    assert_eq!(
        reported("ok-header-phone-reach"),
        "the platform is m, w is taken"
    );
    assert_eq!(
        reported("ok-padded-reader-count-of-0"),
        "the reader count is 0 in 2 bytes, 1 would do"
    );
    assert_eq!(reported("ok-kind-34-page"), "no type id names reader 3");
    assert_eq!(
        reported("ok-driver-equal-readers"),
        "reader 2 reads Coach.Console.Page, as reader 1 does, whose name is at byte 12"
    );
    assert_eq!(
        reported("ok-kind-00-null"),
        "the first object is of kind Null"
    );
    for name in ["ok-driver-repeated-key", "ok-driver-repeated-key-as-object"] {
        let reported = reported(name);
        assert!(reported.starts_with("the key \""), "{reported}");
        assert!(reported.contains(" repeats that of row "), "{reported}");
    }
    let reported = reported("ok-driver-second-page-without-next");
    assert!(reported.ends_with(" has no next page"), "{reported}");
}
