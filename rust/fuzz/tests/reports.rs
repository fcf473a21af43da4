//! Req 14 over generated packs: the second program's reports.

use corpus::reports::{Report, REPORT_WORDS, ROW_WORDS};
use fuzz::random::Random;
use fuzz::reports::{case, limits, ReportCase, ReportKnown};
use second::report::{add, sum};
use second::{pack, Refusal};
use std::collections::BTreeMap;

/// How many packs are tried; FUZZ_PACKS in the environment asks for another number.
fn packs() -> u64 {
    let asked = std::env::var("FUZZ_PACKS").ok();
    asked.and_then(|it| it.parse().ok()).unwrap_or(6_000)
}

/// Compares an answer, the report and both tables with what is known; gives the refusal's number or 0.
fn check(name: &str, case: &ReportCase, words: &mut Vec<u32>) -> u32 {
    words.clear();
    words.resize(case.words, 7);
    let mut table = vec![0xAAAA_AAAA; case.table];
    let mut report = case.before;
    let answer = add(&case.pack, &case.enums, &mut table, words, &mut report);
    assert!(words.iter().all(|&word| word == 0), "{name}: row table");
    let mut read_table = vec![0; case.table];
    let read = pack::read(&case.pack, &mut read_table);
    match answer {
        Ok(()) => assert!(read.is_ok() && table == read_table, "{name}"),
        Err(_) => {
            assert!(table.iter().all(|&word| word == 0), "{name}: pack table");
            assert_eq!(report, case.before, "{name}: the report");
        }
    }
    let given = match answer {
        Ok(()) => ReportKnown::Added(Box::new(report)),
        Err(Refusal { number, place }) => ReportKnown::Refused { number, place },
    };
    if let Some(known) = &case.known {
        assert_eq!(given, *known, "{name}");
    }
    answer.map_or_else(|refusal| refusal.number, |()| 0)
}

#[test]
fn generated_packs_give_what_is_known_and_every_refusal() {
    let (mut numbers, mut words) = (BTreeMap::new(), Vec::new());
    let mut seen = [0; REPORT_WORDS];
    for seed in 0..packs() {
        let case = case(seed);
        let number = check(&format!("seed {seed}"), &case, &mut words);
        *numbers.entry(number).or_insert(0) += 1;
        // All figures, which say what the packs hold.
        if number == 0 || number == 71 {
            let mut table = vec![0; case.table];
            let answer = add(&case.pack, &case.enums, &mut table, &mut words, &mut seen);
            assert_eq!(answer, Ok(()), "seed {seed}");
        }
    }
    println!("{numbers:?}");
    for number in [0, 1, 8, 9, 15, 20, 31, 71, 72] {
        let count = numbers.get(&number).copied().unwrap_or(0);
        assert!(count >= 20, "refusal {number} occurs {count} times");
    }
    println!("{seen:?}");
    // Each kind and each refusal of a load stand in some pack, but 2, which no file that starts with `XNB` meets, and 19.
    for number in (1..=38).filter(|it| !matches!(it, 2 | 10 | 19 | 21 | 23..=31)) {
        assert!(seen[4 + number] > 0, "no file is refused {number}");
    }
    for kind in (0..=42).filter(|kind| *kind != 14 && *kind != 31) {
        assert!(seen[68 + kind] > 0, "no row has kind {kind}");
    }
}

#[test]
fn limits_give_what_is_known() {
    let mut words = Vec::new();
    let mut numbers = BTreeMap::new();
    for limit in limits() {
        assert!(limit.case.known.is_some(), "{}", limit.name);
        let number = check(&limit.name, &limit.case, &mut words);
        *numbers.entry(number).or_insert(0) += 1;
    }
    println!("{numbers:?}");
    // Files, accepted, text and image bytes, two refusals, five kinds.
    assert_eq!(numbers[&71], 11);
}

/// "It is the same however the list is split between two runs whose reports are added."
#[test]
fn reports_of_two_runs_add_up() {
    let enums = corpus::enums::list_bytes(&[("Coach.Lamp", 1)]);
    let mut words = vec![0; ROW_WORDS];
    let run = |seeds: &[u64], words: &mut [u32]| {
        let mut report: Report = [0; REPORT_WORDS];
        for seed in seeds {
            // Packs that the reader refuses change nothing.
            let pack = case(*seed).pack;
            let mut table = [0; 40];
            let _ = add(&pack, &enums, &mut table, words, &mut report);
        }
        report
    };
    let mut random = Random::new(14);
    for start in 0..20 {
        let seeds: Vec<u64> = (start * 30..start * 30 + 30).collect();
        let whole = run(&seeds, &mut words);
        let (one, other) = seeds.split_at(random.below(31));
        let mut total = run(one, &mut words);
        assert_eq!(sum(&mut total, &run(other, &mut words)), Ok(()));
        assert_eq!(total, whole);
        let mut turned = run(other, &mut words);
        assert_eq!(sum(&mut turned, &run(one, &mut words)), Ok(()));
        assert_eq!(turned, whole);
    }
}

#[test]
fn equal_seeds_give_equal_cases() {
    for seed in 0..100 {
        let (one, other) = (case(seed), case(seed));
        assert_eq!((one.pack, one.enums), (other.pack, other.enums));
        assert_eq!((one.before, one.known), (other.before, other.known));
    }
}
