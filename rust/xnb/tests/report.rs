//! Req 14: reports of the static library against the second program, every word of every buffer compared.

mod lent;

use corpus::packs::folder::kept_packs;
use corpus::reports::kept_samples;
use fuzz::packs::{self, limits as pack_limits};
use fuzz::random::Random;
use fuzz::reports::{case, limits, ReportCase, ReportKnown};
use lent::Lent;
use second::Refusal;
use std::collections::BTreeMap;
use xnb::raw;
use xnb::report::{Counter, Report, REPORT_WORDS, ROW_WORDS};
use xnb::{Kind, Loader};

/// How many packs are tried; FUZZ_PACKS in the environment asks for another number.
fn cases() -> u64 {
    let asked = std::env::var("FUZZ_PACKS").ok();
    asked.and_then(|it| it.parse().ok()).unwrap_or(20_000)
}

/// How often each refusal number was given, 0 for none.
type Counts = BTreeMap<u32, u64>;

type Words = [u64; REPORT_WORDS];

/// Buffers that are used again and again: most of a row table's words are not touched by a file.
struct Sides {
    random: Random,
    counts: Counts,
    linked_words: Lent<u32>,
    second_words: Vec<u32>,
}

/// The most words that a case lends for rows.
const MOST_WORDS: usize = ROW_WORDS + 100;
/// The garbage in the row table.
const GARBAGE: u32 = 0xAAAA_AAAA;

impl Sides {
    fn new(seed: u64) -> Sides {
        Sides {
            random: Random::new(seed),
            counts: Counts::new(),
            linked_words: Lent::new(GARBAGE, MOST_WORDS),
            second_words: vec![GARBAGE; MOST_WORDS],
        }
    }

    /// Compares an addition with so many words lent, all garbage before, and to a report.
    fn compare(&mut self, name: &str, case: &ReportCase) -> Result<(), Refusal> {
        let Sides {
            random,
            counts,
            linked_words,
            second_words,
        } = self;
        // A part of the row table is garbage; all of it in some cases.
        let dirty = match random.below(50) {
            0 => case.words,
            _ => case.words.min(7 * 1024),
        };
        let word = random.number();
        let mut linked_table = Lent::new(word, case.table);
        let mut second_table = vec![word; case.table];
        let mut linked_report = Lent::new(!word, REPORT_WORDS);
        linked_report.middle().copy_from_slice(&case.before);
        let mut second_report = case.before;

        let garbage = &mut second_words[..dirty];
        garbage.fill(GARBAGE);
        let lent = &mut second_words[..case.words];
        let expected = second::report::add(
            &case.pack,
            &case.enums,
            &mut second_table,
            lent,
            &mut second_report,
        );
        let words = &mut linked_words.middle()[..case.words];
        words[..dirty].fill(GARBAGE);
        let report = linked_report.middle();
        let report: &mut Words = report.try_into().expect("a report");
        let answer = raw::report::add(
            &case.pack,
            &case.enums,
            linked_table.middle(),
            words,
            report,
        );
        let reported = match expected {
            Ok(()) => (0, 0),
            Err(refusal) => (refusal.number, refusal.place as u64),
        };
        assert_eq!(answer, reported, "{name}");
        assert!(words.iter().all(|word| *word == 0), "{name}: the row table");
        linked_table.check(name, &second_table);
        linked_report.check(name, &second_report);
        *counts.entry(reported.0).or_default() += 1;
        expected
    }

    /// Behind the words that were lent nothing is changed.
    fn check_margins(&mut self) {
        let left = self.linked_words.middle().to_vec();
        self.linked_words.check("the margins", &left);
    }
}

/// Compares each case as it is, with other room for files and rows, and with other reports.
fn compare_all(sides: &mut Sides, name: &str, case: &ReportCase) {
    let answer = sides.compare(name, case);
    if let Some(ReportKnown::Refused { number, place }) = case.known {
        assert_eq!(answer, Err(Refusal { number, place }), "{name}");
    }
    let mut other = case.clone();
    other.table = sides.random.below(case.table + 9);
    other.before = [sides.random.number(); REPORT_WORDS];
    let _ = sides.compare(name, &other);
    if sides.random.chance(20) {
        other = case.clone();
        other.words = sides.random.pick(&[0, 1, 7, ROW_WORDS - 1, ROW_WORDS - 7]);
        let _ = sides.compare(name, &other);
    }
}

#[test]
fn generated_packs_give_the_second_programs_answers() {
    let mut sides = Sides::new(14);
    for seed in 0..cases() {
        compare_all(&mut sides, &format!("seed {seed}"), &case(seed));
    }
    sides.check_margins();
    println!("{:?}", sides.counts);
    for number in [0, 1, 8, 9, 15, 20, 31, 71, 72] {
        let count = sides.counts.get(&number).copied().unwrap_or(0);
        assert!(count >= 50, "{number} is given {count} times");
    }
}

/// Packs of all forms, of which many are refused and few hold XNB files.
#[test]
fn other_generated_packs_give_the_second_programs_answers() {
    let mut sides = Sides::new(15);
    let packs = (0..cases() / 4).map(|seed| packs::case(corpus::packs::NO_MARK, seed));
    let limits = pack_limits::cases(corpus::packs::NO_MARK);
    let limits = limits.into_iter().map(|limit| limit.case);
    for (number, pack) in packs.chain(limits).enumerate() {
        let case = ReportCase {
            pack: pack.bytes,
            enums: vec![],
            table: pack.words,
            words: ROW_WORDS,
            before: [0; REPORT_WORDS],
            known: None,
        };
        let _ = sides.compare(&format!("pack {number}"), &case);
    }
    println!("{:?}", sides.counts);
}

#[test]
fn limits_give_the_second_programs_answers() {
    let mut sides = Sides::new(16);
    for limit in limits() {
        let answer = sides.compare(&limit.name, &limit.case);
        let known = limit.case.known.expect("a known answer");
        match (answer, known) {
            (Ok(()), ReportKnown::Added(_)) => {}
            (Err(refusal), ReportKnown::Refused { number, place }) => {
                assert_eq!(refusal, Refusal { number, place }, "{}", limit.name);
            }
            (answer, _) => panic!("{}: {answer:?}", limit.name),
        }
    }
    println!("{:?}", sides.counts);
    assert!(sides.counts[&71] > 0 && sides.counts[&0] > 0);
}

#[test]
fn corpus_packs_give_their_reports() {
    for sample in kept_samples() {
        let expected = sample.expected();
        let mut report = Report::of_words(expected.before);
        let loader = Loader::new().with_enum_bytes(&expected.enums);
        let (mut table, mut words) = (vec![7; expected.table], vec![7; expected.words]);
        let answer = report.add_pack(loader, &sample.pack, &mut table, &mut words);
        assert!(words.iter().all(|word| *word == 0), "{}", sample.name);
        let reported = answer.map_err(|refused| (refused.refusal.number(), refused.place));
        let reported = reported.map(|()| *report.words());
        assert_eq!(reported, expected.answer, "{}", sample.name);
        if reported.is_err() {
            assert_eq!(*report.words(), expected.before, "{}", sample.name);
        }
    }
    let mut sides = Sides::new(17);
    for sample in kept_packs() {
        let case = ReportCase {
            pack: sample.bytes,
            enums: vec![],
            table: 4 * 4096,
            words: ROW_WORDS,
            before: [0; REPORT_WORDS],
            known: None,
        };
        let _ = sides.compare(&sample.name, &case);
    }
}

/// Sums of reports, at bounds and at random.
#[test]
fn sums_give_the_second_programs_answers() {
    let mut random = Random::new(18);
    let mut counts = Counts::new();
    for _ in 0..cases() {
        let mut into: Words = std::array::from_fn(|_| random.number() >> 1);
        let mut other: Words = std::array::from_fn(|_| random.number() >> 1);
        for _ in 0..random.below(3) {
            let place = random.below(REPORT_WORDS);
            into[place] = random.number();
            let excess = random.pick(&[0, 0, 1]);
            other[place] = (u64::MAX - into[place]).saturating_add(excess);
        }
        let mut expected = into;
        let refusal = second::report::sum(&mut expected, &other);
        let number = refusal.map_or_else(|refusal| refusal.number, |()| 0);
        let mut lent = Lent::new(7_u64, REPORT_WORDS);
        lent.middle().copy_from_slice(&into);
        let words: &mut Words = lent.middle().try_into().expect("a report");
        assert_eq!(raw::report::sum(words, &other), number);
        lent.check("a sum", &expected);
        *counts.entry(number).or_default() += 1;

        let mut report = Report::of_words(into);
        let added = report.add(&Report::of_words(other));
        assert_eq!(added.is_ok(), number == 0);
        assert_eq!(*report.words(), expected);
    }
    println!("{counts:?}");
    assert!(counts[&0] > 1_000 && counts[&71] > 1_000);
}

/// "It is the same however the list is split between two runs whose reports are added."
#[test]
fn reports_of_two_runs_add_up() {
    let run = |seeds: &[u64]| {
        let mut counter = Counter::new();
        for seed in seeds {
            // A refused pack changes nothing.
            let _ = counter.add(&case(*seed).pack);
        }
        counter.take()
    };
    let mut random = Random::new(19);
    for start in 0..20 {
        let seeds: Vec<u64> = (start * 30..start * 30 + 30).collect();
        let whole = run(&seeds);
        let (one, other) = seeds.split_at(random.below(31));
        let [one, other] = [run(one), run(other)];
        for (first, second) in [(&one, &other), (&other, &one)] {
            let mut sum = first.clone();
            sum.add(second).expect("small figures");
            assert_eq!(sum, whole);
        }
    }
}

/// The figures by their names are those of the words.
#[test]
fn figures_have_names() {
    let words: Words = std::array::from_fn(|place| 1_000 + place as u64);
    let report = Report::of_words(words);
    let named = (
        report.files(),
        report.accepted(),
        report.text_bytes(),
        report.image_bytes(),
    );
    assert_eq!(named, (1_000, 1_001, 1_002, 1_003));
    for (refusal, files) in report.each_refusal() {
        assert_eq!(files, 1_004 + u64::from(refusal.number()));
        assert_eq!(files, report.refusals(refusal));
    }
    for (kind, rows) in report.each_kind() {
        assert_eq!(rows, 1_068 + u64::from(kind.number()));
    }
    let kinds = (0..64).filter_map(Kind::of_number).count();
    assert_eq!(report.each_kind().count(), kinds);
    assert_eq!(report.refusals(xnb::Refusal::FigureTooLarge), 0);
    let none = Report::new();
    assert_eq!((none.refused(), none.all_rows()), (0, 0));
    let full = Report::of_words([u64::MAX; REPORT_WORDS]);
    assert_eq!((full.refused(), full.all_rows()), (u64::MAX, u64::MAX));
}
