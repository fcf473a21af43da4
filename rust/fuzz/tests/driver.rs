//! Req 07 over generated files: the second program's driver's loader.

use fuzz::driver::{case, limits, offends, OFFENCES};
use fuzz::enums::EnumCase;
use fuzz::Known;
use second::{driver, load, Loaded, Refusal};
use std::collections::{BTreeMap, BTreeSet};

/// How many files are tried; FUZZ_FILES in the environment asks for another number.
fn files() -> u64 {
    let asked = std::env::var("FUZZ_FILES").ok();
    asked.and_then(|it| it.parse().ok()).unwrap_or(40_000)
}

/// Holds the driver's loader to what is known and to the plain loader; gives the refusal's number or 0.
fn check(name: &str, EnumCase { case, enums }: &EnumCase) -> u32 {
    let mut words = vec![0xAAAA_AAAA; case.words];
    let answer = driver::load(&case.bytes, enums, &mut words);
    match &case.known {
        Some(Known::Accepted {
            rows,
            readers,
            shared,
            padding,
        }) => {
            let loaded = Loaded {
                rows: rows.len(),
                readers: *readers,
                shared: *shared,
                padding: *padding,
            };
            assert_eq!(answer, Ok(loaded), "{name}");
        }
        Some(Known::Refused { number, place }) => {
            let (number, place) = (*number, *place);
            assert_eq!(answer, Err(Refusal { number, place }), "{name}");
        }
        None => {}
    }
    let mut plain_words = vec![0x5555_5555; case.words];
    let plain = load(&case.bytes, enums, &mut plain_words);
    match answer {
        // "Its rows are then the plain loader's."
        Ok(loaded) => {
            assert_eq!((answer, loaded.padding), (plain, 0), "{name}");
            assert!(words == plain_words, "{name}: other rows");
            0
        }
        // "Refusals: all of 01's first"; "after any refusal the table is zero".
        Err(refusal) => {
            assert!(words.iter().all(|&word| word == 0), "{name}");
            assert_eq!(OFFENCES.contains(&refusal.number), plain.is_ok(), "{name}");
            refusal.number
        }
    }
}

#[test]
fn generated_files_give_what_is_known_and_every_refusal() {
    let (mut numbers, mut pairs) = (BTreeMap::new(), BTreeSet::new());
    for seed in 0..files() {
        let case = case(seed);
        let number = check(&format!("seed {seed}"), &case);
        *numbers.entry(number).or_insert(0) += 1;
        for later in OFFENCES.filter(|later| offends(seed, *later)) {
            pairs.insert((number, later));
        }
    }
    println!("{numbers:?}");
    for number in [0, 1, 13, 15, 19, 20, 32].into_iter().chain(OFFENCES) {
        let count = numbers.get(&number).copied().unwrap_or(0);
        assert!(count >= 50, "refusal {number} occurs {count} times");
    }
    // Each alone, and before each later one.
    for number in OFFENCES {
        for later in number..=47 {
            assert!(pairs.contains(&(number, later)), "{number} before {later}");
        }
    }
}

#[test]
fn limits_give_what_is_known() {
    let mut numbers = BTreeSet::new();
    let limits = limits();
    assert!(limits.len() > 150, "only {} limits", limits.len());
    for limit in limits {
        assert!(limit.case.case.known.is_some(), "{}", limit.name);
        numbers.insert(check(&limit.name, &limit.case));
    }
    assert_eq!(numbers, BTreeSet::from([0, 41, 43, 44, 45, 46, 47]));
}

/// Files that are made for other requests, with no answer known.
#[test]
fn other_files_have_the_plain_loaders_rows_or_none() {
    let mut numbers = BTreeMap::new();
    for seed in 0..files() / 4 {
        for mut case in [
            fuzz::enums::case(seed),
            EnumCase {
                case: fuzz::case(seed),
                enums: vec![],
            },
        ] {
            case.case.known = None;
            let number = check(&format!("seed {seed}"), &case);
            *numbers.entry(number).or_insert(0) += 1;
        }
    }
    println!("{numbers:?}");
    assert!(numbers[&41] > 500 && numbers[&43] > 500);
}

#[test]
fn equal_seeds_give_equal_cases() {
    for seed in 0..100 {
        let (one, other) = (case(seed), case(seed));
        assert_eq!(one.enums, other.enums);
        assert_eq!(one.case.bytes, other.case.bytes);
        assert_eq!(one.case.known, other.case.known);
    }
}
